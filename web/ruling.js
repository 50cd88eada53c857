// A report's line in words: the ruling, each side, and the reason in a table of games. Nothing is decided here.

const WINNERS = { "1-0": "white", "0-1": "black" };
const ARTICLES = { "5.1.1": "article_511", "5.2.1": "article_521", "5.2.2": "article_522", "6.9": "article_69" };
const LONGEST_LINE = 6;

function sideName(side) {
    return say(`side_${side}`);
}

/** A line in SAN: the whole, or how it begins and ends. */
function shortLine(san) {
    return san.length <= LONGEST_LINE ? san.join(" ") : `${san.slice(0, 3).join(" ")} .. ${san.at(-1)}`;
}

/** The number of the move that made ply N of a game, where the game is numbered from 1. */
function moveNumber(ply, firstSide) {
    return Math.floor((ply - (firstSide === "black" ? 0 : 1)) / 2) + 1;
}

/** The side whose flag fell, by the report: where it names none, a recorded winner's opponent. */
function fallenFlag(game) {
    if (!game.flagged) return null;
    return game.flag ?? (WINNERS[game.recorded] ? otherSide(WINNERS[game.recorded]) : null);
}

/** The ruling on a game or a position, and its article where it has one. */
function rulingOf(item, firstSide) {
    const article = item.article ?? (item.flagged && WINNERS[item.result] ? "6.9" : articleOfStatus(item));
    return { words: item.game === undefined ? wordsOfPosition(item) : wordsOfGame(item, firstSide), article: article && say(ARTICLES[article]) };
}

function articleOfStatus(item) {
    return { checkmate: "5.1.1", stalemate: "5.2.1", dead: "5.2.2" }[item.game === undefined ? item.status : ""] ?? null;
}

function wordsOfPosition(item) {
    const { status, white, black } = item;
    if (status === "checkmate") return say("rule_mate", { winner: sideName(otherSide(sideToMove(item.fen))) });
    if (status === "stalemate") return say("rule_stalemate");
    if (status === "dead") return say("rule_dead");
    const can = ["white", "black"].filter((side) => item[side].verdict === "winnable");
    if (can.length === 2) return say("rule_both");
    const undecided = [white, black].find((it) => it.verdict === "undecided");
    const positions = undecided && countedPositions(undecided.positions);
    if (can.length === 1) {
        const [side, other] = [sideName(can[0]), sideName(otherSide(can[0]))];
        if (item[otherSide(can[0])].verdict === "skipped") return say("rule_live", { can: side });
        return undecided ? say("rule_some", { can: side, other, positions }) : say("rule_one", { can: side, cannot: other });
    }
    if (white.verdict === black.verdict) return say("rule_undecided", { positions });
    const other = white.verdict === "undecided" ? "white" : "black";
    return say("rule_none_shown", { positions, other: sideName(other), cannot: sideName(otherSide(other)) });
}

function wordsOfGame(game, firstSide) {
    if (game.article === "5.1.1") return say("rule_mate", { winner: sideName(WINNERS[game.result]) });
    if (game.article === "5.2.1") return say("rule_stalemate");
    if (game.article === "5.2.2") return wordsOfDead(game, firstSide);
    const flag = fallenFlag(game);
    const winner = flag && otherSide(flag);
    const names = winner && { loser: sideName(flag), winner: sideName(winner) };
    if (game.article === "6.9") return say("rule_flag_draws", names);
    if (!flag || !WINNERS[game.recorded]) return say(game.recorded === "*" ? "rule_open" : "rule_stands", { result: game.recorded });
    const found = game[winner];
    if (found.verdict === "undecided") return say("rule_flag_undecided", { ...names, positions: countedPositions(found.positions) });
    return say("rule_flag_wins", { ...names, line: shortLine(found.san ?? []) });
}

function wordsOfDead(game, firstSide) {
    const from = game.dead_from;
    if (game.asked === "position" || !from) return say("rule_dead");
    if (from.ply === 0) return say("rule_dead_start");
    const name = from.undecided === undefined ? "rule_dead_since" : "rule_dead_or_earlier";
    return say(name, { move: moveNumber(from.ply, firstSide) });
}

/** A side's verdict in words: what it is, and what shows it. */
function wordsOfSide(side, found, isPosition) {
    const name = sideName(side);
    switch (found.verdict) {
        case "winnable":
            if (found.plies === 0) return [say("has_mated", { side: name }), ""];
            return [say("can_mate", { side: name }), say("can_mate_by", { line: found.san.join(" ") })];
        case "unwinnable":
            return [say("cannot_mate", { side: name }), why(found, name)];
        case "undecided":
            return [say("undecided", { side: name }), say("undecided_after", { positions: countedPositions(found.positions), depth: found.depth })];
        default:
            return [say("skipped", { side: name }), say(isPosition ? "skipped_position" : "skipped_why", { other: sideName(otherSide(side)) })];
    }
}

/** Which game it is: its number among many, its players, its event and date, as far as its text has them. */
function titleOf({ game, tags }, isAlone) {
    const known = (name) => (tags?.[name] && !/^[?.]*$/.test(tags[name]) ? tags[name] : null);
    const players = [known("White"), known("Black")];
    const names = players.some(Boolean) ? players.map((name) => name ?? "?").join(" – ") : null;
    return [isAlone ? null : say("game_number", { number: game }), names, known("Event"), known("Date")?.replace(/\.\?.*/, "")].filter(Boolean).join(" · ");
}

/** Why a game's result is what it is, for a table. */
function reasonOf(game, firstSide) {
    if (game.unreadable) return game.unreadable;
    if (game.article === "5.2.2") {
        if (game.asked === "position") return say("reason_522_now");
        const ply = game.dead_from?.ply ?? 0;
        return ply ? say("reason_522", { move: moveNumber(ply, firstSide) }) : say("reason_522_start");
    }
    const flag = fallenFlag(game);
    const winner = flag && sideName(otherSide(flag));
    if (game.article) return say(`reason_${game.article.replaceAll(".", "")}`, { winner });
    const found = WINNERS[game.recorded] && game[WINNERS[game.recorded]];
    if (found?.verdict === "undecided") return say("reason_kept_undecided");
    return flag && found ? say("reason_flag", { winner }) : say("reason_kept");
}
