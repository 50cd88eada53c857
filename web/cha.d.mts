// Types of cha.mjs, and of the lines of its reports with --json.

/** What a call answers: the program's exit status. */
export declare const Answer: { readonly done: 0; readonly usage: 1; readonly tooLong: 4; readonly noMemory: 5; readonly notAccepted: 6 };
export type AnswerNumber = 0 | 1 | 4 | 5 | 6;

/** What a run answers and prints. */
export interface Ran {
    answer: AnswerNumber;
    output: Uint8Array;
}

/** The program's work over bytes in memory. It keeps nothing between two calls. */
export interface Cha {
    readonly module: WebAssembly.Module;
    /** Runs the command that the words name over an input; a text goes in as UTF-8. Throws a RangeError where there is no memory for the input, and a WebAssembly.RuntimeError where the stack is too small. */
    run(words: readonly string[], input?: string | Uint8Array): Ran;
    /** 0 where the text is an accepted certificate: from its first position no series of legal moves mates for its side, which its line `winner` names. Else 4, 5 or 6. Throws as `run`. */
    check(text: string | Uint8Array): AnswerNumber;
}

/** Opens the module from its bytes, or from a module that was compiled from them. */
export declare function open(source: BufferSource | WebAssembly.Module): Promise<Cha>;

/** The lines of a report with --json as objects, the summary last. Throws a SyntaxError where a line is no JSON. */
export declare function linesOf(output: Uint8Array): Line[];

export type Side = "white" | "black";
export type Result = "1-0" | "0-1" | "1/2-1/2" | "*";
export type Status = "checkmate" | "stalemate" | "dead" | "live" | "unclear";

/**
 * The verdict on a side. `fens` is there with --fens, `certificate` with --certs. `by` is `sets`, `graph`, or what the men alone show, by the
 * names in the manual; a later version may have further ones.
 */
export type Verdict =
    | { verdict: "winnable"; plies: number; moves: string[]; san: string[]; fens?: string[] }
    | { verdict: "unwinnable"; by: string; nodes?: number; certificate?: string }
    | { verdict: "undecided"; positions: number; depth: number }
    | { verdict: "skipped" };

/** A game that was judged; `bytes` are the place in the input, as UTF-8, at which it begins, and the place after its end; `line` is counted from 1. */
export interface Game {
    game: number;
    bytes: [number, number];
    line: number;
    fen: string;
    white: Verdict;
    black: Verdict;
    status: Status;
    dead_from: { ply: number; undecided?: number } | null;
    recorded: Result;
    result: Result;
    changed: boolean;
    article: "5.1.1" | "5.2.1" | "5.2.2" | "6.9" | null;
    flagged: boolean;
    flag: Side | null;
}

/** A game that cannot be read. `unreadable` says why; in it each byte of the input is one character (ISO 8859-1). */
export interface UnreadableGame {
    game: number;
    bytes: [number, number];
    line: number;
    unreadable: string;
}

export interface Position {
    position: number;
    line: number;
    fen: string;
    white: Verdict;
    black: Verdict;
    status: Status;
}

export interface RefusedPosition {
    position: number;
    line: number;
    refused: "shape" | "kings" | "pawn rank" | "opponent in check";
}

/** A position's shortest mates, from `mates`: up to 200 lines, with `more` where there are others; or no mate within `depth` plies. */
export type Mates =
    | { position: number; line: number; fen: string; plies: number; lines: { moves: string[]; san: string[] }[]; more: boolean }
    | { position: number; line: number; fen: string; plies: null; depth: number };

/** A game's moves, from `replay`: of an unreadable game those before its first fault. */
export interface Replay {
    game: number;
    bytes: [number, number];
    line: number;
    start: string | null;
    plies: { ply: number; move: string; san: string; fen: string }[];
    unreadable: string | null;
}

/** The last line. `"game" in line` does not tell other lines from it, so take it off first: `linesOf(output).slice(0, -1) as (Game | UnreadableGame)[]`. */
export type Summary = Record<string, number | boolean>;

export type Line = Game | UnreadableGame | Position | RefusedPosition | Mates | Replay | Summary;
