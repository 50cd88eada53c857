// cha for JavaScript: the proved library as a WebAssembly module, in a browser or in Node. README.md beside it says more.

/** What a call answers, as the program's exit status; 7 stays inside. */
export const Answer = Object.freeze({ done: 0, usage: 1, tooLong: 4, noMemory: 5, notAccepted: 6 });

const NO_ROOM = 7;
const WORD = 8;

/** Opens the module from its bytes, or from a module that was compiled from them. */
export async function open(source) {
    const module = source instanceof WebAssembly.Module ? source : await WebAssembly.compile(source);
    return new Cha(module);
}

/** The program's work over bytes in memory. It keeps nothing between two calls. */
class Cha {
    constructor(module) {
        this.module = module;
    }

    /** Runs the command that the words name over an input: the answer, and the bytes that the program prints. */
    run(words, input = "") {
        const call = new Call(this.module);
        const [order, text] = [call.lend(words.join("\0")), call.lend(input)];
        const used = call.room(WORD);
        for (let room = 4 * bytesOf(input).length + 65536; ;) {
            const out = call.room(room);
            const answer = call.number(call.exports.cha_run(...order, ...text, ...out, used[0]));
            const length = call.wordAt(used[0]);
            if (answer !== NO_ROOM) return { answer, output: call.copy(out[0], length) };
            call.exports.give(out[0]);
            room = length;
        }
    }

    /** 0 where the text is an accepted certificate: then no series of legal moves from its first position mates for its side. */
    check(text) {
        const call = new Call(this.module);
        return call.number(call.exports.cha_check(...call.lend(text)));
    }
}

/** One call, in memory of its own, which goes when it has ended, however it ends. */
class Call {
    constructor(module) {
        this.exports = new WebAssembly.Instance(module).exports;
    }

    /** Room of so many bytes: its address and its length, as numbers of 64 bits. */
    room(length) {
        const at = this.exports.take(BigInt(length));
        if (!at) throw new RangeError(`no memory for ${length} bytes`);
        return [at, BigInt(length)];
    }

    /** Room that holds a text in UTF-8, or bytes. */
    lend(text) {
        const bytes = bytesOf(text);
        const [at, length] = this.room(bytes.length);
        new Uint8Array(this.exports.memory.buffer, Number(at), bytes.length).set(bytes);
        return [at, length];
    }

    copy(at, length) {
        return new Uint8Array(this.exports.memory.buffer, Number(at), length).slice();
    }

    wordAt(at) {
        return Number(new DataView(this.exports.memory.buffer).getBigUint64(Number(at), true));
    }

    /** An answer is one byte; what stands above it says nothing. */
    number(answer) {
        return answer & 255;
    }
}

function bytesOf(text) {
    return typeof text === "string" ? new TextEncoder().encode(text) : text;
}

/** The lines of a report with --json, each as an object. */
export function linesOf(output) {
    return new TextDecoder().decode(output).split("\n").filter(Boolean).map((line) => JSON.parse(line));
}
