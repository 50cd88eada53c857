// The positions that are stepped through: a game's plies, and behind them a line that mates.

/** The positions of a game or of a position alone, with a mating line of one side behind them. */
function walkOf({ item, plies, side }) {
    const isGame = item.game !== undefined && item.asked !== "position";
    const steps = plies ? [{ fen: plies.start, kind: "start", ply: 0 }] : [{ fen: item.fen, kind: isGame ? "final" : "start", ply: 0 }];
    for (const { ply, move, san, fen } of plies?.plies ?? []) steps.push({ fen, move, san, ply, kind: "game" });
    const found = side && item[side];
    const final = steps.length - 1;
    (found?.fens ?? []).forEach((fen, at) => steps.push({ fen, move: found.moves[at], san: found.san[at], ply: final + at + 1, kind: "line" }));
    return { steps, final };
}

/** The number that stands before a step in a list of moves: always before White's, and before Black's where it comes first. */
function numberBefore(step, isFirst) {
    // The side that has moved is not the one that is to move behind it.
    const mover = otherSide(sideToMove(step.fen));
    if (mover === "white") return (number) => `${number}.`;
    return isFirst ? (number) => `${number}..` : null;
}

/** The list of steps as buttons, with the first dead ply marked. */
function drawSteps(list, { steps, final }, { deadFrom, side, go }) {
    const first = steps.length > 1 ? otherSide(sideToMove(steps[1].fen)) : "white";
    const parts = [];
    steps.forEach((step, at) => {
        if (at === final + 1) parts.push(made("li", { className: "heading", textContent: say("line_of", { side: sideName(side) }) }));
        const button = made("button", { textContent: at ? step.san : say(step.kind) });
        button.addEventListener("click", () => go(at));
        const item = made("li", { className: "step" }, button);
        const number = at > 0 && numberBefore(step, at === 1 || at === final + 1);
        if (number) item.prepend(made("span", { className: "number", textContent: number(moveNumber(step.ply, first)) }));
        if (deadFrom === step.ply && ["start", "game"].includes(step.kind)) item.append(made("span", { className: "dead", textContent: say("dead_here") }));
        parts.push(item);
    });
    list.replaceChildren(...parts);
}

/** Marks where one is in the list. */
function markStep(list, at) {
    const buttons = [...list.querySelectorAll("button")];
    buttons.forEach((button, index) => (index === at ? button.setAttribute("aria-current", "step") : button.removeAttribute("aria-current")));
    const button = buttons[at];
    if (button) list.scrollTop = Math.max(0, button.offsetTop - list.offsetTop - list.clientHeight / 2);
}
