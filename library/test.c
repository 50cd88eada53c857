/* Runs the library over known inputs, and with each allocation refused in turn: each call ends in its answer or in CHA_NO_MEMORY, what
 * was taken is given back, and nothing is written past the room. Built under the address and undefined-behaviour sanitizers by
 * `make lib-test`. */
#include "cha.h"
#include <stdio.h>
#include <stdlib.h>
#include <string.h>

void *__real_malloc(size_t size);
void *__real_realloc(void *block, size_t size);
void __real_free(void *block);

static long taken, refused_at, calls;

void *__wrap_malloc(size_t size) {
    if (++calls == refused_at) return NULL;
    taken += 1;
    return __real_malloc(size);
}

void *__wrap_realloc(void *block, size_t size) {
    if (++calls == refused_at) return NULL;
    taken += block == NULL;
    return __real_realloc(block, size);
}

void __wrap_free(void *block) {
    taken -= block != NULL;
    __real_free(block);
}

static long checks, failures;

static void want(int holds, const char *what) {
    checks += 1;
    if (!holds) {
        failures += 1;
        printf("not so: %s\n", what);
    }
}

struct run {
    const char *words;
    size_t words_len;
    const char *input;
    const char *output;
    uint8_t answer;
};

#define WORDS(text) text, sizeof(text) - 1

static const struct run runs[] = {
    {WORDS("position"), "", "positions: 0, refused: 0, dead: 0, undecided: 0\n", CHA_DONE},
    {WORDS("adjudicate"), "", "games: 0, unreadable: 0, changed: 0, undecided: 0\n", CHA_DONE},
    {WORDS("position\0--workers=1"), "4k3/8/8/8/8/8/8/4K3 w KQkq e6 0 1",
     "position 1\nfen: 4k3/8/8/8/8/8/8/4K3 w - -\nwhite: unwinnable\nblack: unwinnable\nstatus: dead\n"
     "positions: 1, refused: 0, dead: 1, undecided: 0\n",
     CHA_DONE},
    {WORDS("adjudicate"), "1. f3 e5 2. g4 Qh4# 0-1",
     "game 1\nfen: rnb1kbnr/pppp1ppp/8/4p3/6Pq/5P2/PPPPP2P/RNBQKBNR w KQkq -\nwhite: skipped\nblack: winnable in 0\n"
     "status: checkmate\nresult: 0-1 -> 0-1 by 5.1.1\ngames: 1, unreadable: 0, changed: 0, undecided: 0\n",
     CHA_DONE},
    {WORDS("adjudicate"), "[FEN \"6k1/5ppp/8/8/8/8/5PPP/3R2K1 b - -\"]\n[Termination \"time forfeit\"]\n\n1-0",
     "game 1\nfen: 6k1/5ppp/8/8/8/8/5PPP/3R2K1 b - -\nwhite: winnable in 2: g8h8 d1d8\nblack: skipped\nstatus: live\n"
     "result: 1-0 -> 1-0 as recorded\ngames: 1, unreadable: 0, changed: 0, undecided: 0\n",
     CHA_DONE},
    {WORDS("correct"), "", "", CHA_DONE},
    {WORDS("correct"), "1. e4 *\n[Result \"1-0\"]\n\n1. f3 e5 2. g4 Qh4# {1-0} 1-0 \n",
     "1. e4 *\n[Result \"0-1\"]\n\n1. f3 e5 2. g4 Qh4# {1-0} 0-1 \n", CHA_DONE},
    {WORDS("correct\0--changed"), "1. e4 *\n[Result \"1-0\"]\n\n1. f3 e5 2. g4 Qh4# 1-0 \n1. e4 ) *",
     "[Result \"0-1\"]\n\n1. f3 e5 2. g4 Qh4# 0-1\n\n", CHA_DONE},
    {WORDS("correct\0--flagged-draws"), "[FEN \"8/8/4k3/8/8/4K3/4Q3/8 b - -\"]\n[Termination \"time forfeit\"]\n\n1/2-1/2\n",
     "[FEN \"8/8/4k3/8/8/4K3/4Q3/8 b - -\"]\n[Termination \"time forfeit\"]\n\n1-0\n", CHA_DONE},
    {WORDS("correct\0--json"), "", "", CHA_USAGE},
    {WORDS("check"), "", "refused: line 1 header\n", CHA_NOT_ACCEPTED},
    {WORDS("solve"), "", "", CHA_USAGE},
    {WORDS(""), "", "", CHA_USAGE},
    {WORDS("\xff"), "", "", CHA_USAGE},
    {WORDS("position\0--budget=0"), "", "", CHA_USAGE},
};

static const char accepted[] = "cha-cert 1\nwinner w\nnodes 2\ninner k7/1Q6/8/8/8/8/8/4K3 b - -\nleaf 8/1k6/8/8/8/8/8/4K3 w - -\n"
                               "loose 0002000000000010\nreach e1 K ffffffffffffffff\nreach b7 K ffffffffffffffff\nend\n";

/* The answer of a run with so much room, which has a canary behind it. */
static uint8_t run_once(const struct run *run, uint8_t *room, size_t size, size_t *used) {
    memset(room, 0xa5, 4096);
    uint8_t answer = cha_run((const uint8_t *)run->words, run->words_len, (const uint8_t *)run->input, strlen(run->input), room, size,
                             used);
    for (size_t at = size; at < 4096; at++) want(room[at] == 0xa5, "nothing is written past the room");
    return answer;
}

static void known_answers(const struct run *run) {
    uint8_t room[4096];
    size_t used = 0, length = strlen(run->output);
    want(run_once(run, room, sizeof room, &used) == run->answer, "the answer is the program's");
    want(used == length && memcmp(room, run->output, length) == 0, run->output);
    want(run_once(run, room, length, &used) == run->answer, "room for just the output is enough");
    if (length > 0) {
        want(run_once(run, room, length - 1, &used) == CHA_NO_ROOM, "a byte less is no room");
        want(used == length, "the length is told");
    }
}

static long refusals(const struct run *run) {
    long tried = 0;
    for (;; tried++) {
        uint8_t room[4096];
        size_t used = 0;
        calls = 0, refused_at = tried + 1;
        uint8_t answer = run_once(run, room, sizeof room, &used);
        long made = calls;
        refused_at = 0;
        want(taken == 0, "what was taken is given back");
        if (made < tried + 1) return tried;
        if (answer != CHA_NO_MEMORY) {
            want(answer == run->answer, "where a refusal is overcome the answer is the same");
            want(used == strlen(run->output) && memcmp(room, run->output, used) == 0, "and so is the output");
        }
    }
}

int main(void) {
    long tried = 0;
    for (size_t at = 0; at < sizeof runs / sizeof *runs; at++) {
        known_answers(&runs[at]);
        tried += refusals(&runs[at]);
    }
    const uint8_t *text = (const uint8_t *)accepted;
    want(cha_check(text, sizeof accepted - 1) == CHA_DONE, "a certificate of two nodes is accepted");
    want(cha_check(text, sizeof accepted - 2) == CHA_NOT_ACCEPTED, "without its last byte it is not");
    want(taken == 0, "checks give back what they took");
    printf("%zu runs, %ld refused allocations\n%ld passed, %ld failed\n", sizeof runs / sizeof *runs, tried, checks - failures, failures);
    return failures != 0;
}
