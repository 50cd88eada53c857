// Reads what the program writes: a FEN, a move, a certificate; and the tag pairs of a game for its players' names.

const FILES = "abcdefgh";

/** The men of a FEN: each with its letter and its square. */
function menOf(fen) {
    const men = [];
    fen.split(" ")[0].split("/").forEach((row, down) => {
        let file = 0;
        for (const letter of row) {
            if (letter >= "1" && letter <= "8") file += Number(letter);
            else men.push({ man: letter, square: FILES[file++] + (8 - down) });
        }
    });
    return men;
}

/** Which side a man's letter in a FEN belongs to. */
function sideOfMan(man) {
    return man === man.toUpperCase() ? "white" : "black";
}

function sideToMove(fen) {
    return fen.split(" ")[1] === "b" ? "black" : "white";
}

function otherSide(side) {
    return side === "white" ? "black" : "white";
}

/** The squares that a printed move leaves and enters. */
function squaresOfMove(move) {
    return [move.slice(0, 2), move.slice(2, 4)];
}

/** The squares of a set that is written as sixteen hexadecimal digits: bit 0 is a1, bit 63 is h8. */
function squaresOfSet(digits) {
    const set = BigInt(`0x${digits}`);
    const names = Array.from({ length: 64 }, (_, index) => FILES[index % 8] + (Math.floor(index / 8) + 1));
    return names.filter((_, index) => (set >> BigInt(index)) & 1n);
}

/** The mobility sets of a certificate's first position by the square on which a man stands there; none where it has no such sets. */
function setsOf(certificate) {
    const lines = certificate.split("\n");
    const leaf = lines[1 + lines.findIndex((line) => line.startsWith("nodes "))].split(" ");
    if (leaf[0] !== "leaf") return null;
    const begin = lines.flatMap((line, at) => (line.startsWith("loose ") ? [at] : []))[Number(leaf[1])];
    const loose = new Set(squaresOfSet(lines[begin].split(" ")[1]));
    const reach = new Map();
    for (const line of lines.slice(begin + 1)) {
        const [word, square, , digits] = line.split(" ");
        if (word !== "reach") break;
        reach.set(square, new Set([...(reach.get(square) ?? []), ...squaresOfSet(digits)]));
    }
    return { loose, reach };
}

/** The tag pairs with which the text of a game begins. */
function tagsOf(text) {
    const pair = /\s*\[\s*(\w+)\s*"((?:[^"\\]|\\.)*)"\s*\]/y;
    const tags = {};
    for (let found = pair.exec(text); found; found = pair.exec(text)) tags[found[1]] ??= found[2].replace(/\\(.)/g, "$1");
    return tags;
}

/** A position as a game whose player has lost on time, so that the program rules on it. */
function gameOfFlag(fen, flag) {
    const result = flag === "white" ? "0-1" : "1-0";
    const value = fen.trim().replace(/[\\"]/g, "\\$&");
    return `[Result "${result}"]\n[FEN "${value}"]\n[Termination "time forfeit"]\n\n${result}\n`;
}
