// The work, away from the page: it is asked by a message, and answers by messages of the same number. To stop it, the page ends it.

const CHUNK = 65536;
const SMALL = 65536;
const LINE_FEED = 10;
let opened = null;
let cha = null;

onmessage = async ({ data }) => {
    try {
        if (data.job === "open") opened = open(data.module);
        cha = await opened;
        JOBS[data.job]?.(data, (told) => postMessage({ id: data.id, ...told }));
        postMessage({ id: data.id, kind: "end" });
    } catch (error) {
        postMessage({ id: data.id, kind: "failed", answer: error.answer, why: String(error.message ?? error) });
    }
};

const JOBS = {
    /** Rules on all that a text has: positions where its first line is one, else games. */
    judge({ bytes, options, flag }, tell) {
        const isPositions = arePositions(bytes);
        const source = isPositions && flag !== "none" ? gamesOfFlag(bytes, flag) : null;
        tell({ kind: "begin", isPositions, source });
        const [text, isFen] = [source ?? bytes, isPositions && !source];
        const words = [isFen ? "position" : "adjudicate", "--json", ...options, ...(bytes.length <= SMALL ? ["--fens", "--certs"] : [])];
        for (const { items, done } of isFen ? positionsOf(text, words) : gamesOf(text, words)) {
            tell({ kind: "items", items, done, total: text.length });
        }
    },

    /** Rules on one game or position in full. */
    detail({ command, bytes, options }, tell) {
        tell({ kind: "items", items: report([command, "--json", "--fens", "--certs", ...options], bytes).slice(0, -1) });
    },

    /** The plies of one game. */
    replay({ bytes }, tell) {
        tell({ kind: "items", items: report(["replay", "--json"], bytes).slice(0, -1) });
    },

    /** What the program says of a certificate. */
    check({ bytes }, tell) {
        const { answer, output } = cha.run(["check"], bytes);
        tell({ kind: "checked", answer, said: new TextDecoder().decode(output).trim() });
    },

    /** A report as the program prints it. */
    report({ words, bytes }, tell) {
        tell({ kind: "report", ...cha.run(words, bytes) });
    },
};

/** A report's lines; an answer that is neither done nor refused is an error. */
function report(words, bytes) {
    const { answer, output } = cha.run(words, bytes);
    if (answer !== Answer.done) throw Object.assign(new Error(`status ${answer}`), { answer });
    return linesOf(output);
}

/** Whether the first line that is not blank is a position, or was meant to be one: eight rows are written with seven strokes. */
function arePositions(bytes) {
    const line = new TextDecoder().decode(bytes.subarray(0, 8192)).split("\n").find((it) => it.trim());
    if (line === undefined || line.trim().startsWith("[")) return false;
    const [found] = report(["position", "--json", "--budget=1", "--depth=2"], new TextEncoder().encode(`${line}\n`));
    return found.refused !== "shape" || line.trim().split(/\s/)[0].split("/").length > 2;
}

/** A game lost on time for each line. */
function gamesOfFlag(bytes, flag) {
    const lines = new TextDecoder().decode(bytes).split("\n").filter((it) => it.trim());
    return new TextEncoder().encode(lines.map((line) => gameOfFlag(line, flag)).join("\n"));
}

/** The positions of a text, some lines at a time. */
function* positionsOf(bytes, words) {
    let [from, count, lines] = [0, 0, 0];
    while (from < bytes.length) {
        const end = bytes.indexOf(LINE_FEED, Math.min(from + CHUNK / 32, bytes.length));
        const to = end < 0 ? bytes.length : end + 1;
        const items = report(words, bytes.subarray(from, to)).slice(0, -1);
        yield { items: items.map((it) => ({ ...it, position: it.position + count, line: it.line + lines })), done: to };
        lines += lineFeeds(bytes.subarray(from, to));
        count += items.length;
        from = to;
    }
}

/** The games of a text, some at a time. Where one begins, the program says: the last one of a part may go on, and begins the next part. */
function* gamesOf(bytes, words) {
    let [from, size, count, lines] = [0, CHUNK, 0, 0];
    while (from < bytes.length) {
        const to = Math.min(from + size, bytes.length);
        const games = report(words, bytes.subarray(from, to)).slice(0, -1);
        const kept = to === bytes.length ? games : games.slice(0, -1);
        const next = to === bytes.length ? to : from + (games.at(-1)?.bytes[0] ?? 0);
        if (next === from) {
            size *= 2;
            continue;
        }
        yield { items: kept.map((it) => shifted(it, { from, count, lines })), done: next };
        lines += lineFeeds(bytes.subarray(from, next));
        [from, size, count] = [next, CHUNK, count + kept.length];
    }
}

/** A game of a part, as it stands in the whole. */
function shifted(game, { from, count, lines }) {
    const why = game.unreadable?.replace(/(?<=^bad token at byte )\d+/, (byte) => Number(byte) + from);
    const place = { game: game.game + count, line: game.line + lines, bytes: game.bytes.map((byte) => byte + from) };
    return { ...game, ...place, ...(why && { unreadable: why }) };
}

function lineFeeds(bytes) {
    let found = 0;
    for (const byte of bytes) found += byte === LINE_FEED;
    return found;
}
