// One game or position on the page: its ruling, its board, the steps, and each side with what shows its verdict.

/** What is shown of the item that is open. */
class Shown {
    constructor(at, work, check) {
        Object.assign(this, { at, work, check, item: null, plies: null, walk: null, step: 0, side: null, shade: null, isTurned: false });
    }

    /** Opens an item; `source` is the text that the program has read, as bytes. */
    async open(item, source, { options, isAlone }) {
        Object.assign(this, { item, isAlone, plies: null, side: null, shade: null });
        const isGame = item.game !== undefined && item.asked !== "position";
        const part = item.bytes ? source.subarray(...item.bytes) : new TextEncoder().encode(item.fen ?? "");
        if (isGame) await this.work.ask("replay", { bytes: part }, ({ items }) => ([this.plies] = items));
        const command = item.bytes ? "adjudicate" : "position";
        if (this.item === item && lacksDetail(item)) await this.work.ask("detail", { command, bytes: part, options }, ({ items }) => this.complete(items[0]));
        if (this.item === item) this.draw();
    }

    /** Takes the lines of positions and the certificates of a report on the item alone. */
    complete(full) {
        for (const side of ["white", "black"]) if (full?.[side]) this.item[side] = full[side];
    }

    firstSide() {
        return this.plies?.start ? sideToMove(this.plies.start) : firstSideOf(this.item.tags);
    }

    draw() {
        const wrong = this.item.unreadable ?? this.item.refused;
        this.drawRuling(wrong);
        const hasBoard = Boolean(this.item.fen ?? this.plies?.start);
        this.at.position.hidden = !hasBoard;
        this.at.sides.replaceChildren();
        if (!hasBoard) return;
        if (!wrong) this.drawSides();
        this.follow(this.side ?? this.firstLine());
    }

    drawRuling(wrong) {
        const { item, at } = this;
        const isGame = item.game !== undefined && item.asked !== "position";
        const ruling = wrong ? { words: say(isGame ? "unreadable" : "refused", { why: fault(wrong) }) } : rulingOf(item, this.firstSide());
        at.whose.textContent = isGame ? titleOf(item, this.isAlone) : "";
        at.words.textContent = ruling.words;
        at.article.textContent = ruling.article ?? "";
        const names = { recorded: item.recorded, result: item.result };
        at.result.textContent = wrong || !isGame ? "" : say(item.changed ? "was_changed" : "was_kept", names);
        at.further.hidden = ![item.white, item.black].some((it) => it?.verdict === "undecided" && it.positions < 100000);
        at.ruling.hidden = false;
    }

    drawSides() {
        this.at.sides.replaceChildren(...["white", "black"].map((side) => this.drawnSide(side, this.item[side])));
    }

    drawnSide(side, found) {
        const [head, why] = wordsOfSide(side, found, this.item.game === undefined);
        const card = made("div", { className: "side" }, made("h2", { textContent: head }), made("p", { textContent: why }));
        card.dataset.side = side;
        const buttons = made("div", { className: "buttons" });
        if (found.fens?.length) buttons.append(this.button("line_of", { side: sideName(side) }, () => this.follow(side)));
        if (found.certificate) {
            const sets = setsOf(found.certificate);
            if (sets) card.append(this.menOfSets(side, sets));
            buttons.append(this.button("save_certificate", {}, () => saveFile(`cha-${side}.txt`, "text/plain", found.certificate)));
            buttons.append(this.button("check_this", {}, () => this.check(found.certificate)));
        }
        if (buttons.childElementCount) card.append(buttons);
        return card;
    }

    button(name, values, act) {
        const button = made("button", { textContent: say(name, values) });
        button.addEventListener("click", act);
        return button;
    }

    /** A button for each man, which shades its squares. */
    menOfSets(side, sets) {
        const buttons = menOf(this.item.fen).map(({ man, square }) => {
            const letter = man.toLowerCase() === "p" ? "" : man.toUpperCase();
            const button = made("button", { textContent: letter + square });
            button.setAttribute("aria-label", `${sideName(sideOfMan(man))}: ${manName(man)} ${square}`);
            button.setAttribute("aria-pressed", "false");
            button.dataset.man = square;
            button.addEventListener("click", () => {
                this.shadeFrom(square, side);
                this.at.board.scrollIntoView({ block: "nearest" });
            });
            return button;
        });
        return made("div", { className: "buttons men" }, ...buttons);
    }

    /** Shades where the man on a square may ever stand, by the sets of a side's certificate, or of the first that has sets. */
    shadeFrom(square, side = ["white", "black"].find((it) => this.item?.[it]?.certificate && setsOf(this.item[it].certificate))) {
        const man = this.item?.fen && menOf(this.item.fen).find((it) => it.square === square);
        if (!side || !man) return;
        const isSame = this.shade?.chosen === square && this.shade.side === side;
        const { loose, reach } = setsOf(this.item[side].certificate);
        const squares = reach.get(square) ?? new Set([square]);
        const words = { man: `${sideName(sideOfMan(man.man))}: ${manName(man.man)}`, square, count: squares.size };
        const isFixed = !loose.has(square) && squares.size === 1;
        this.shade = isSame ? null : { chosen: square, side, shaded: squares, words: say(isFixed ? "stands_fixed" : "squares_of", words) };
        this.go(this.walk.final);
    }

    /** The side whose mating line is shown first: the one that the ruling speaks of, else White's. */
    firstLine() {
        const flag = fallenFlag(this.item);
        const sides = flag ? [otherSide(flag), flag] : ["white", "black"];
        return sides.find((side) => this.item[side]?.fens?.length) ?? null;
    }

    follow(side) {
        this.side = side;
        this.walk = walkOf({ item: this.item, plies: this.plies?.start ? this.plies : null, side });
        const go = (at) => this.go(at);
        drawSteps(this.at.steps, this.walk, { deadFrom: this.item.dead_from?.ply, side, go });
        this.go(this.walk.final);
    }

    go(step) {
        this.step = Math.max(0, Math.min(step, this.walk.steps.length - 1));
        const { fen, move } = this.walk.steps[this.step];
        const shade = this.step === this.walk.final ? this.shade : null;
        drawBoard(this.at.board, { fen, moved: move ? squaresOfMove(move) : [], isTurned: this.isTurned, ...shade });
        markStep(this.at.steps, this.step);
        this.at.shadeWords.textContent = shade?.words ?? "";
        for (const button of this.at.sides.querySelectorAll("[data-man]")) {
            const isPressed = shade?.chosen === button.dataset.man && shade.side === button.closest(".side").dataset.side;
            button.setAttribute("aria-pressed", String(isPressed));
        }
        this.at.first.disabled = this.at.back.disabled = this.step === 0;
        this.at.last.disabled = this.at.forward.disabled = this.step === this.walk.steps.length - 1;
    }

    turn() {
        this.isTurned = !this.isTurned;
        if (this.walk) this.go(this.step);
    }
}

/** Whether a report on many has left out what is shown of one. */
function lacksDetail(item) {
    const lacks = (found) => (found?.verdict === "winnable" && !found.fens) || (found?.verdict === "unwinnable" && !found.certificate);
    return lacks(item.white) || lacks(item.black);
}
