// The board: a position with the squares of the last move, and squares that are shaded. It knows nothing of chess beyond where men stand.

const SIDE_OF_SQUARE = 45;

/** Draws the board anew. `shaded` is a set of squares or null, `chosen` the square of the man that they belong to. */
function drawBoard(board, { fen, moved = [], shaded = null, chosen = null, isTurned = false }) {
    const men = menOf(fen);
    const corner = (square) => {
        const [across, down] = [FILES.indexOf(square[0]), 8 - Number(square[1])];
        return isTurned ? [7 - across, 7 - down] : [across, down];
    };
    const parts = [];
    for (let index = 0; index < 64; index++) {
        const square = FILES[index % 8] + (8 - Math.floor(index / 8));
        const how = { isMoved: moved.includes(square), isShaded: shaded?.has(square) };
        parts.push(drawnSquare(square, corner(square), how));
    }
    if (chosen) parts.push(chosenFrame(corner(chosen)));
    parts.push(...edgeWords(isTurned));
    for (const { man, square } of men) {
        const [across, down] = corner(square);
        const group = drawnMan(man);
        group.setAttribute("transform", `translate(${across * SIDE_OF_SQUARE} ${down * SIDE_OF_SQUARE})`);
        group.dataset.man = man;
        group.dataset.square = square;
        parts.push(group);
    }
    board.replaceChildren(...parts);
    board.setAttribute("aria-label", boardInWords(men, fen));
}

function drawnSquare(square, [across, down], { isMoved, isShaded }) {
    const kinds = ["square", (across + down) % 2 ? "dark" : "light", isMoved && "moved", isShaded && "shaded"];
    const size = SIDE_OF_SQUARE;
    const rect = drawn("rect", { class: kinds.filter(Boolean).join(" "), x: across * size, y: down * size, width: size, height: size });
    rect.dataset.square = square;
    if (!isShaded) return rect;
    const centre = { cx: (across + 0.5) * size, cy: (down + 0.5) * size, r: size * 0.44 };
    return drawn("g", {}, rect, drawn("circle", { class: "reach", ...centre }));
}

/** A frame inside the square of the man whose squares are shaded. */
function chosenFrame([across, down]) {
    const size = SIDE_OF_SQUARE;
    return drawn("rect", { class: "chosen", x: across * size + 1.5, y: down * size + 1.5, width: size - 3, height: size - 3 });
}

/** Letters of files below, numbers of ranks at the left. */
function edgeWords(isTurned) {
    const words = [];
    for (let index = 0; index < 8; index++) {
        const [file, rank] = isTurned ? [FILES[7 - index], index + 1] : [FILES[index], 8 - index];
        words.push(drawn("text", { class: `edge ${index % 2 ? "on-dark" : "on-light"}`, x: 2, y: index * SIDE_OF_SQUARE + 10 }, String(rank)));
        words.push(drawn("text", { class: `edge ${index % 2 ? "on-light" : "on-dark"}`, x: (index + 1) * SIDE_OF_SQUARE - 8, y: 358 }, file));
    }
    return words;
}

/** The position for a screen reader. */
function boardInWords(men, fen) {
    const of = (side) => men.filter(({ man }) => sideOfMan(man) === side).map(({ man, square }) => `${manName(man)} ${square}`);
    const words = (side) => say("men_of", { side: sideName(side), men: of(side).join(", ") });
    return `${say("board_label", { white: words("white"), black: words("black") })} ${say("to_move", { side: sideName(sideToMove(fen)) })}.`;
}

function manName(man) {
    return say(`man_${man.toLowerCase()}`);
}
