// The table of many games or positions: a row for each, a filter, and the same as CSV.

const ROWS_AT_ONCE = 500;
const COLUMNS = {
    games: ["number", "white", "black", "recorded", "result", "reason"],
    positions: ["number", "fen", "status", "white", "black"],
    flags: ["number", "fen", "result", "reason"],
};

/** The table over the items of a run, which grow while it goes on. `open` is called with an item that is chosen. */
class Table {
    constructor(elements, open) {
        Object.assign(this, { elements, open, items: [], limit: ROWS_AT_ONCE, kind: "games", chosen: null });
        elements.changed.addEventListener("change", () => this.draw());
        elements.more.addEventListener("click", () => this.grow());
    }

    /** Begins anew, for games, positions, or positions with a flag that fell. */
    begin(kind) {
        Object.assign(this, { kind, items: [], limit: ROWS_AT_ONCE, chosen: null });
        this.elements.changed.checked = false;
        this.elements.changed.closest("label").hidden = kind !== "games";
        this.elements.title.textContent = say(kind === "games" ? "games" : "positions");
        this.elements.columns.replaceChildren(...this.columns().map((name) => made("th", { scope: "col", role: "columnheader", textContent: say(`column_${name}`) })));
        this.elements.rows.replaceChildren();
    }

    columns() {
        return COLUMNS[this.kind];
    }

    add(items) {
        this.items.push(...items);
        const room = this.limit - this.elements.rows.childElementCount;
        this.elements.rows.append(...items.filter((it) => this.passes(it)).slice(0, room).map((item) => this.row(item)));
        this.count();
    }

    passes(item) {
        return item.changed || !this.elements.changed.checked;
    }

    wanted() {
        return this.items.filter((it) => this.passes(it));
    }

    grow() {
        this.limit += ROWS_AT_ONCE;
        this.draw();
    }

    choose(item) {
        this.chosen = item;
        for (const row of this.elements.rows.children) markChosen(row, row.item === item);
    }

    draw() {
        this.elements.rows.replaceChildren(...this.wanted().slice(0, this.limit).map((item) => this.row(item)));
        this.count();
    }

    count() {
        const [all, wanted] = [this.items.length, this.wanted().length];
        const shown = Math.min(wanted, this.limit);
        this.elements.shown.textContent = say("rows_shown", { shown: counted(shown), count: counted(this.elements.changed.checked ? wanted : all) });
        this.elements.more.hidden = shown === wanted;
        this.elements.more.textContent = say("more_rows", { count: Math.min(ROWS_AT_ONCE, wanted - shown) });
    }

    row(item) {
        const cells = this.columns().map((name) => this.cell(item, name));
        const button = made("button", { textContent: cellOf(item, "number"), ariaLabel: say("open_row", { number: cellOf(item, "number") }) });
        button.addEventListener("click", () => this.open(item));
        cells[0].replaceChildren(button);
        const row = made("tr", { className: item.changed ? "changed" : "", role: "row", item }, ...cells);
        markChosen(row, item === this.chosen);
        return row;
    }

    /** A cell, with its column's name for screens on which the columns stand below each other. */
    cell(item, name) {
        const cell = made("td", { className: name, role: "cell", textContent: cellOf(item, name) });
        cell.dataset.column = say(`column_${name}`);
        return cell;
    }

    /** The rows that the filter lets through, as RFC 4180 has it. */
    csv() {
        const names = [...this.columns(), "line"];
        const lines = [names, ...this.wanted().map((item) => names.map((name) => cellOf(item, name)))];
        return lines.map((cells) => cells.map(quotedCell).join(",")).join("\r\n") + "\r\n";
    }
}

/** Marks a row as the one that is shown, or not. */
function markChosen(row, isChosen) {
    if (isChosen) row.setAttribute("aria-current", "true");
    else row.removeAttribute("aria-current");
}

/** What a column has of an item. */
function cellOf(item, name) {
    const isGame = item.game !== undefined;
    const wrong = item.unreadable ?? item.refused;
    switch (name) {
        case "number": return String(item.game ?? item.position);
        case "line": return String(item.line);
        case "white": case "black": return isGame ? item.tags[name === "white" ? "White" : "Black"] ?? "" : verdictCell(item[name]);
        case "reason": return reasonOf(item, firstSideOf(item.tags));
        case "status": return wrong ?? say(`status_${item.status}`);
        default: return item[name] ?? "";
    }
}

function verdictCell(found) {
    return found?.verdict ?? "";
}

/** The side that moves first in a game, by its tag of a starting position. */
function firstSideOf(tags) {
    return tags?.FEN ? sideToMove(tags.FEN) : "white";
}

/** A cell in quotation marks; one that a spreadsheet would take for a formula begins with an apostrophe. */
function quotedCell(text) {
    return `"${text.replace(/^(?=[=+@\t\r]|-\D)/, "'").replaceAll('"', '""')}"`;
}

/** An element with properties and what is inside. */
function made(name, properties = {}, ...inside) {
    const { scope, ...rest } = properties;
    const element = Object.assign(document.createElement(name), rest);
    if (scope) element.setAttribute("scope", scope);
    element.append(...inside);
    return element;
}
