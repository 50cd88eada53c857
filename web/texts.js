// All that the page says, by language. A language may lack a text: English then stands for it. {name} is replaced.

const TEXTS = {
    en: {
        title: "cha",
        subtitle: "Can a side still checkmate? The ruling by the Laws of Chess, on this device alone.",
        ask_label: "A position (FEN) or games (PGN): paste them, or drop a file anywhere",
        judge: "Give the ruling",
        open_file: "Open a file",
        clear: "Clear",
        examples: "Examples",
        example_knight: "A knight and a blocked king",
        example_wall: "A closed wall",
        example_bishop: "A lone bishop",
        example_graph: "One forced move",
        example_game: "A game lost on time",
        example_dead: "A game played on when dead",
        flag_legend: "Whose flag fell? (for a position)",
        flag_none: "Nobody's",
        flag_white: "White's",
        flag_black: "Black's",
        options: "How far to look",
        budget_label: "Most positions explored for each side",
        depth_label: "Depth of the search, in plies",
        drop_here: "Drop the file here",
        busy: "Looking ..",
        busy_games: "{done} % of the file, {count} games or positions so far",
        progress: "How far it is",
        stop: "Stop",
        stopped: "Stopped. What was found before that is below.",
        look_further: "Look further: 100,000 positions",
        empty: "Nothing to judge: paste a position or a game.",
        failed: "This input could not be judged: {why}",
        no_order: "The limits are whole numbers: 1 to 100,000 positions, 2 to 8 plies.",
        too_long: "The input has more than 268,435,456 bytes.",
        no_memory: "There is not enough memory for this input.",
        refused: "This is no position: {why}",
        fault_shape: "a FEN names the men, the side to move, the castling rights and the en passant target, as in 8/8/8/4k3/8/8/8/4KB2 w - -",
        fault_kings: "each side has to have one king",
        "fault_pawn rank": "a pawn cannot stand on the first or the last rank",
        "fault_opponent in check": "the side that is not to move cannot be in check",
        unreadable: "This game cannot be read: {why}",
        nothing_found: "There is neither a position nor a game in this text.",
        side_white: "White",
        side_black: "Black",
        board: "The board",
        board_label: "{white}. {black}.",
        men_of: "{side}: {men}",
        to_move: "{side} to move",
        first: "First position",
        back: "Back",
        forward: "Forward",
        last: "Last position",
        flip: "Turn the board",
        steps: "Moves",
        start: "start",
        final: "final position",
        dead_here: "dead",
        line_of: "How {side} mates",
        keys: "Keys: Control and Enter give the ruling; left and right step, Home and End go to the ends, f turns the board.",
        save_certificate: "Save the certificate",
        check_this: "Check it below",
        save_mended: "Save the games with the right results",
        link: "Copy a link to this",
        linked: "The link was copied.",
        link_fallback: "The link is in the address bar.",
        game_number: "Game {number}",
        open_row: "{number}: show it",
        games: "All games",
        positions: "All positions",
        only_changed: "Changed results only",
        save_csv: "Save as CSV",
        rows_shown: "{shown} of {count}",
        more_rows: "Show {count} more",
        column_number: "No.",
        column_white: "White",
        column_black: "Black",
        column_recorded: "Recorded",
        column_result: "By the Laws",
        column_reason: "Reason",
        column_fen: "Position",
        column_status: "State",
        certificate: "Check a certificate",
        certificate_label: "The text of a certificate, from its line 'cha-cert' to 'end'",
        check: "Check",
        accepted: "Accepted: from its first position no series of legal moves ends in a mate by {side}.",
        not_accepted: "Refused: {why}",
        about: "About this page",
        about_offline: "Everything is in this one file. It works without a network, sends nothing to any server, and stores nothing; what was asked is in the address alone.",
        about_proof: "The rulings are made by the proved code of the program cha, compiled another way. Its reports were compared with the program's byte for byte; for WebAssembly nothing is proved.",
        about_trust: "Besides what the program trusts, this page trusts the change of the compiled module's target, the compiler's and the linker's work for WebAssembly, wasm-opt, a heap of some lines of C, this browser, and its own drawing.",
        about_men: "The men were drawn for this page.",

        article_511: "Article 5.1.1: the game is won by the player who has checkmated the opponent's king.",
        article_521: "Article 5.2.1: the game is drawn where the player to move has no legal move and the king is not in check.",
        article_522: "Article 5.2.2: the game is drawn when neither player can checkmate by any series of legal moves; that ends the game at once.",
        article_69: "Article 6.9: the player whose flag falls loses; but the game is drawn if the opponent cannot checkmate by any possible series of legal moves.",
        rule_mate: "Checkmate: {winner} wins (5.1.1).",
        rule_stalemate: "Stalemate: drawn (5.2.1).",
        rule_dead: "Dead position: the game has ended as a draw (5.2.2).",
        rule_dead_start: "Dead position from the start: the game is a draw (5.2.2).",
        rule_dead_since: "Dead position since move {move}: the game ended there as a draw (5.2.2).",
        rule_dead_or_earlier: "Dead position since move {move} or earlier: the game ended there as a draw (5.2.2).",
        rule_flag_wins: "{loser}'s flag fell: {winner} wins, since {winner} can still checkmate, for example {line}.",
        rule_flag_draws: "{loser}'s flag fell. Drawn: no series of legal moves lets {winner} checkmate (6.9).",
        one_position: "1 position",
        some_positions: "{count} positions",
        rule_flag_undecided: "Not decided within {positions} whether {winner} can still checkmate.",
        rule_stands: "The recorded result stands: {result}.",
        rule_open: "The game goes on: nothing in the position ends it.",
        rule_both: "Play goes on: both sides can still checkmate.",
        rule_live: "Play goes on: {can} can still checkmate.",
        rule_one: "Play goes on: {can} can still checkmate, {cannot} cannot.",
        rule_some: "Play goes on: {can} can still checkmate. Whether {other} can is not decided within {positions}.",
        rule_undecided: "Not decided within {positions}.",
        rule_none_shown: "Not decided within {positions} whether {other} can still checkmate; {cannot} cannot.",
        summary_games: "{count} games. Results that change by the Laws: {changed}. Unreadable: {unreadable}. Undecided: {undecided}.",
        summary_positions: "{count} positions. Dead: {dead}. Refused: {unreadable}. Undecided: {undecided}.",
        summary_flags: "{count} positions with a fallen flag. Drawn: {drawn}. Refused: {unreadable}. Undecided: {undecided}.",
        was_changed: "Recorded {recorded}, by the Laws {result}.",
        was_kept: "Recorded {recorded}, by the Laws the same.",

        can_mate: "{side} can checkmate",
        can_mate_by: "For example: {line}",
        has_mated: "{side} has checkmated",
        cannot_mate: "{side} can never checkmate",
        why_sets: "Whatever both sides play, no man ever leaves certain squares, and no mate for {side} fits into them. Choose a man, here or on the board, to see every square on which it may ever stand.",
        why_material: "With a king and at most one man on each side no arrangement of these men is a mate for {side}, however they stand.",
        "why_lone pieces": "Minor pieces like these never mate alone: beside a king in check some square is always left on which only a man could stand that captures the checker or steps between.",
        why_men: "The men alone show it, wherever they stand ({by}).",
        why_graph: "Every position that can still arise was looked at, {nodes} in all, and none is a mate for {side}.",
        undecided: "Not decided for {side}",
        undecided_after: "{positions} explored without a mate; there is none within {depth} plies.",
        skipped: "{side} was not examined",
        skipped_why: "The result cannot depend on it.",
        skipped_position: "The game goes on either way. To have this side examined, say above that {other}'s flag fell.",
        squares_of: "{man} on {square}: {count} squares on which it may ever stand.",
        stands_fixed: "{man} on {square} can never move and never be captured.",

        man_k: "king", man_q: "queen", man_r: "rook", man_b: "bishop", man_n: "knight", man_p: "pawn",
        reason_511: "checkmate (5.1.1)",
        reason_521: "stalemate (5.2.1)",
        reason_522: "dead since move {move} (5.2.2)",
        reason_522_now: "dead (5.2.2)",
        reason_522_start: "dead from the start (5.2.2)",
        reason_69: "flag fell, {winner} cannot mate (6.9)",
        reason_kept: "as recorded",
        reason_kept_undecided: "as recorded, winner undecided",
        reason_flag: "flag fell, {winner} can mate",
        status_checkmate: "checkmate", status_stalemate: "stalemate", status_dead: "dead", status_live: "live", status_unclear: "unclear",
    },
};

const LANGUAGE = TEXTS[navigator.language.slice(0, 2)] ? navigator.language.slice(0, 2) : "en";

/** The text of a name, with values in the places that it has for them. */
function say(name, values = {}) {
    const found = TEXTS[LANGUAGE][name] ?? TEXTS.en[name] ?? name;
    return found.replace(/\{(\w+)\}/g, (whole, key) => values[key] ?? whole);
}

/** What is wrong with an input, and in words what a position is refused for. */
function fault(wrong) {
    const name = `fault_${wrong.replace(/^bad FEN: /, "")}`;
    return TEXTS.en[name] ? `${wrong} (${say(name)})` : wrong;
}

/** What shows that a side cannot mate. A reason that has no text of its own is one of the men alone. */
function why(found, side) {
    const name = `why_${found.by}`;
    return say(TEXTS.en[name] ? name : "why_men", { side, by: found.by, nodes: counted(found.nodes ?? 0) });
}

/** A count as this language writes it. */
function counted(number) {
    return number.toLocaleString(LANGUAGE);
}

/** A count of positions, with the word in its number. */
function countedPositions(number) {
    return say(number === 1 ? "one_position" : "some_positions", { count: counted(number) });
}
