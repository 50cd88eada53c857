// What was asked, in the address, so that a link can be sent: #fen=..&flag=white or #pgn=.. with the limits where they are not the default.

const LONGEST_IN_ADDRESS = 6000;
const LIMITS = { budget: "20000", depth: "4" };

/** The address's part behind # for a text; empty where it is too long for a link. */
function addressOf({ text, isPosition, flag, limits }) {
    const asked = new URLSearchParams();
    asked.set(isPosition ? "fen" : "pgn", text.trim());
    if (isPosition && flag !== "none") asked.set("flag", flag);
    for (const [name, value] of Object.entries(limits)) if (value !== LIMITS[name]) asked.set(name, value);
    const address = asked.toString();
    return address.length > LONGEST_IN_ADDRESS ? "" : address;
}

/** What an address asks, or null. */
function askedBy(hash) {
    const asked = new URLSearchParams(hash.replace(/^#/, ""));
    const text = asked.get("fen") ?? asked.get("pgn");
    if (text === null) return null;
    const flag = ["white", "black"].includes(asked.get("flag")) ? asked.get("flag") : "none";
    const limits = Object.fromEntries(Object.entries(LIMITS).map(([name, usual]) => [name, asked.get(name) ?? usual]));
    return { text, flag, limits };
}
