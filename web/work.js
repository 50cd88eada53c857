// The page's side of the worker: jobs that are asked, answered and stopped.

/** The worker, made anew when a job is stopped. */
class Work {
    constructor(code, module) {
        this.code = URL.createObjectURL(new Blob([code], { type: "text/javascript" }));
        this.module = module;
        this.asked = new Map();
        this.number = 0;
        this.start();
    }

    start() {
        this.worker = new Worker(this.code);
        this.worker.onmessage = ({ data }) => this.told(data);
        this.worker.onerror = (event) => this.told({ kind: "failed", why: event.message, id: Math.max(...this.asked.keys()) });
        this.ask("open", { module: this.module });
    }

    /** Asks for a job. `hear` is called with each message; the promise ends with the last one. */
    ask(job, what, hear = () => {}) {
        const id = ++this.number;
        return new Promise((resolve) => {
            this.asked.set(id, { hear, resolve });
            this.worker.postMessage({ id, job, ...what });
        });
    }

    told(message) {
        const asked = this.asked.get(message.id);
        if (!asked) return;
        if (message.kind === "end" || message.kind === "failed") {
            this.asked.delete(message.id);
            asked.resolve(message);
        } else {
            asked.hear(message);
        }
    }

    /** Ends all that is under way. */
    stop() {
        this.worker.terminate();
        const waiting = [...this.asked.values()];
        this.asked.clear();
        this.start();
        for (const { resolve } of waiting) resolve({ kind: "stopped" });
    }
}

/** The bytes of a text in base 64, unpacked from gzip. */
async function unpacked(text) {
    const packed = Uint8Array.from(atob(text), (letter) => letter.charCodeAt(0));
    const stream = new Blob([packed]).stream().pipeThrough(new DecompressionStream("gzip"));
    return new Response(stream).arrayBuffer();
}

/** Offers a text, or bytes, as a file to save. */
function saveFile(name, type, text) {
    const link = made("a", { href: URL.createObjectURL(new Blob([text], { type })), download: name });
    link.click();
    setTimeout(() => URL.revokeObjectURL(link.href), 10000);
}
