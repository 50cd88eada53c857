// The page: what is asked, and what comes of it.

const EXAMPLES = {
    example_knight: { text: "6k1/8/8/8/6n1/8/6PP/6RK b - -", flag: "white" },
    example_wall: { text: "4k3/7B/8/p1p1p1p1/P1P1P1P1/8/8/4K3 w - -", flag: "none" },
    example_bishop: { text: "8/8/8/4k3/3q4/8/8/4KB2 w - -", flag: "black" },
    example_graph: { text: "k7/1Q6/8/8/8/8/8/4K3 b - -", flag: "white" },
    example_game: {
        text: '[White "anna"]\n[Black "ben"]\n[Result "1-0"]\n[Termination "anna won on time"]\n\n1. e4 e5 2. Nf3 Nc6 3. Bb5 a6 1-0',
        flag: "none",
    },
    example_dead: {
        text: '[White "anna"]\n[Black "ben"]\n[Result "1-0"]\n[FEN "4k3/8/8/8/8/8/3p4/4K3 w - -"]\n\n1. Kxd2 Kd7 2. Kd3 Kd6 1-0',
        flag: "none",
    },
};
const SHOWN_AS_TEXT = 200000;
const TROUBLES = { 1: "no_order", 4: "too_long", 5: "no_memory" };

const at = Object.fromEntries([...document.querySelectorAll("[id]")].map((it) => [it.id.replace(/-(\w)/g, (_, letter) => letter.toUpperCase()), it]));
const asking = { address: null, source: new Uint8Array(), run: 0 };
let work = null;
let shown = null;
let table = null;

function chosenFlag() {
    return document.querySelector("input[name=flag]:checked").value;
}

function limits() {
    return { budget: at.budget.value, depth: at.depth.value };
}

function options() {
    return Object.entries(limits()).map(([name, value]) => `--${name}=${value}`);
}

function complain(words) {
    at.complaint.textContent = words;
}

/** Rules on what stands in the box. The examples stay open for whoever goes through them. */
function judge({ isExample = false } = {}) {
    const text = at.text.value;
    at.examplesBox.open = isExample;
    if (!text.trim()) return complain(say("empty"));
    return judgeBytes(new TextEncoder().encode(text), text);
}

/** Rules on a text. Where it was typed, the address says so. */
async function judgeBytes(bytes, text = null) {
    // What was under way is of no use any more.
    if (document.body.dataset.busy === "yes") work.stop();
    const run = ++asking.run;
    begin(bytes);
    const told = await work.ask("judge", { bytes, options: options(), flag: chosenFlag() }, (message) => hear(message, run));
    if (run !== asking.run) return;
    at.working.hidden = true;
    remember(told.kind === "failed" ? null : text);
    await end(told);
    if (run === asking.run) document.body.dataset.busy = "no";
}

/** What went wrong, by an answer of the module, or by what stopped it. */
function troubleOf(answer, why = `status ${answer}`) {
    return TROUBLES[answer] ? say(TROUBLES[answer]) : say("failed", { why });
}

/** Shows how a run ended, and what it found. */
function end(told) {
    if (told.kind === "failed") return complain(troubleOf(told.answer, told.why));
    if (told.kind !== "stopped") return showItems();
    complain(say("stopped"));
    return asking.items.length ? showItems() : undefined;
}

/** Clears what was shown. */
function begin(bytes) {
    document.body.dataset.busy = "yes";
    complain("");
    at.ruling.hidden = at.position.hidden = at.table.hidden = true;
    asking.source = bytes;
    asking.items = [];
    asking.options = options();
    asking.judged = 0;
    at.mended.hidden = true;
    at.progress.removeAttribute("value");
    at.told.textContent = say("busy");
    at.working.hidden = false;
}

function hear(message, run) {
    if (run !== asking.run) return;
    if (message.kind === "begin") {
        asking.isPositions = message.isPositions;
        asking.source = message.source ?? asking.source;
        asking.kind = !message.isPositions ? "games" : message.source ? "flags" : "positions";
        table.begin(asking.kind);
        return;
    }
    const { items, done, total } = message;
    asking.items.push(...items.map(withTags));
    asking.judged = done;
    at.progress.value = done / total;
    at.told.textContent = say("busy_games", { done: Math.floor((100 * done) / total), count: counted(asking.items.length) });
    if (asking.items.length > 1) {
        table.add(asking.items.slice(table.items.length));
        at.table.hidden = false;
    }
}

/** A game with the tag pairs of its own text, and whether it was asked as a position. */
function withTags(item) {
    if (item.game === undefined) return item;
    const head = asking.source.subarray(item.bytes[0], Math.min(item.bytes[1], item.bytes[0] + 4096));
    return { ...item, tags: tagsOf(new TextDecoder().decode(head)), ...(asking.isPositions && { asked: "position" }) };
}

/** Behind a run: the only item, or the table with a word on all. */
async function showItems() {
    const { items } = asking;
    at.mended.hidden = asking.kind !== "games" || !items.some((it) => it.changed);
    if (items.length === 0) return complain(say("nothing_found"));
    if (items.length === 1) return openItem(items[0]);
    at.words.textContent = summaryWords(items);
    at.whose.textContent = at.result.textContent = at.article.textContent = "";
    at.further.hidden = true;
    at.ruling.hidden = false;
}

function summaryWords(items) {
    const count = (test) => counted(items.filter(test).length);
    const isUndecided = (it) => [it.white, it.black].some((found) => found?.verdict === "undecided");
    const values = {
        count: counted(items.length),
        changed: count((it) => it.changed),
        dead: count((it) => it.status === "dead"),
        drawn: count((it) => it.result === "1/2-1/2"),
        unreadable: count((it) => it.unreadable ?? it.refused),
        undecided: count(isUndecided),
    };
    return say(`summary_${asking.kind}`, values);
}

async function openItem(item) {
    table.choose(item);
    const wrong = item.unreadable ?? item.refused;
    const isAlone = asking.items.length === 1;
    await shown.open(item, asking.source, { options: options(), isAlone });
    if (isAlone && wrong) {
        at.ruling.hidden = true;
        complain(say(asking.isPositions ? "refused" : "unreadable", { why: fault(wrong) }));
    }
    if (!isAlone) at.ruling.scrollIntoView({ block: "start" });
}

/** The address has what was asked, or nothing where that was no text. */
function remember(text) {
    const asked = { text, isPosition: asking.isPositions, flag: chosenFlag(), limits: limits() };
    asking.address = text === null ? "" : addressOf(asked);
    at.link.hidden = !asking.address;
    at.linked.textContent = "";
    location.replace(`#${asking.address}`);
}

/** Asks what the address asks, unless it is what was asked last. */
function followAddress() {
    const asked = askedBy(location.hash);
    if (!asked || location.hash.slice(1) === asking.address) return;
    ask(asked);
}

function ask({ text, flag, limits: wanted = LIMITS }, { isExample = false } = {}) {
    at.text.value = text;
    document.querySelector(`input[name=flag][value=${flag}]`).checked = true;
    at.budget.value = wanted.budget;
    at.depth.value = wanted.depth;
    judge({ isExample });
}

/** Rules on a file. A short one is shown in the box, where nothing was typed that it would take the place of. */
async function takeFile(file) {
    const bytes = new Uint8Array(await file.arrayBuffer());
    if (bytes.length > SHOWN_AS_TEXT || at.text.value.trim()) return judgeBytes(bytes);
    at.text.value = new TextDecoder().decode(bytes);
    return judgeBytes(bytes, at.text.value);
}

function stop() {
    work.stop();
}

async function checkCertificate(text = at.certificate.value) {
    at.certificate.value = text;
    at.certificateBox.open = true;
    await work.ask("check", { bytes: new TextEncoder().encode(text) }, ({ answer, said: words }) => {
        const side = words.endsWith("w") ? "white" : "black";
        const isAccepted = answer === 0;
        const why = words.replace(/^refused: /, "");
        at.checked.textContent = isAccepted ? say("accepted", { side: sideName(side) }) : say("not_accepted", { why });
    });
    at.checked.scrollIntoView({ block: "nearest" });
}

/** Saves the text of the games that were judged, with the right results. */
async function saveMended() {
    at.mended.disabled = true;
    const asked = { words: ["correct", ...asking.options], bytes: asking.source.subarray(0, asking.judged) };
    const told = await work.ask("report", asked, ({ answer, output }) => {
        if (answer === 0) saveFile("cha.pgn", "application/vnd.chess-pgn", output);
        else complain(troubleOf(answer));
    });
    if (told.kind === "failed") complain(say("failed", { why: told.why }));
    at.mended.disabled = false;
}

async function copyLink() {
    try {
        await navigator.clipboard.writeText(location.href);
        at.linked.textContent = say("linked");
    } catch {
        at.linked.textContent = say("link_fallback");
    }
}

const KEYS = {
    ArrowLeft: () => shown.go(shown.step - 1),
    ArrowRight: () => shown.go(shown.step + 1),
    Home: () => shown.go(0),
    End: () => shown.go(Infinity),
    f: () => shown.turn(),
};

function pressed(event) {
    if (event.target === at.text && event.key === "Enter" && (event.ctrlKey || event.metaKey)) return judge();
    const isTyping = event.target.matches?.("textarea, input, summary");
    if (isTyping || event.ctrlKey || event.metaKey || event.altKey || !KEYS[event.key] || at.position.hidden) return undefined;
    event.preventDefault();
    return KEYS[event.key]();
}

function listenForDrops() {
    const isFile = (event) => event.dataTransfer?.types.includes("Files");
    addEventListener("dragover", (event) => {
        event.preventDefault();
        at.drop.hidden = !isFile(event);
    });
    addEventListener("dragleave", (event) => {
        if (!event.relatedTarget) at.drop.hidden = true;
    });
    addEventListener("drop", (event) => {
        at.drop.hidden = true;
        if (!isFile(event)) return;
        event.preventDefault();
        takeFile(event.dataTransfer.files[0]);
    });
}

function listen() {
    const clicks = {
        judge, stop, check: () => checkCertificate(), link: copyLink, mended: saveMended,
        open: () => at.file.click(),
        clear: () => ([at.text.value, at.complaint.textContent] = ["", ""]),
        first: KEYS.Home, back: KEYS.ArrowLeft, forward: KEYS.ArrowRight, last: KEYS.End, flip: KEYS.f,
        csv: () => saveFile("cha.csv", "text/csv", table.csv()),
        further: () => ((at.budget.value = "100000"), judge()),
    };
    for (const [name, act] of Object.entries(clicks)) at[name].addEventListener("click", act);
    at.file.addEventListener("change", () => at.file.files[0] && takeFile(at.file.files[0]));
    at.text.addEventListener("paste", () => setTimeout(() => judge()));
    at.flags.addEventListener("change", () => at.text.value.trim() && judge());
    at.board.addEventListener("click", (event) => shown.shadeFrom(event.target.closest("[data-square]")?.dataset.square));
    addEventListener("keydown", pressed);
    addEventListener("hashchange", followAddress);
    listenForDrops();
}

function fillTexts() {
    document.documentElement.lang = LANGUAGE;
    for (const it of document.querySelectorAll("[data-text]")) it.textContent = say(it.dataset.text);
    for (const it of document.querySelectorAll("[data-label]")) {
        it.setAttribute("aria-label", say(it.dataset.label));
        it.title = say(it.dataset.label);
    }
    for (const [name, asked] of Object.entries(EXAMPLES)) {
        const button = made("button", { textContent: say(name) });
        button.dataset.example = name;
        button.addEventListener("click", () => ask(asked, { isExample: true }));
        at.examples.append(button);
    }
}

async function start() {
    fillTexts();
    work = new Work(at.worker.textContent, await unpacked(at.module.textContent));
    shown = new Shown(at, work, checkCertificate);
    const { changed, more, rows, columns, shown: count, tableTitle: title } = at;
    table = new Table({ changed, more, rows, columns, shown: count, title }, openItem);
    listen();
    followAddress();
    document.body.dataset.ready = "yes";
}

start();
