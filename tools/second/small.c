/* Counts, for each pair of kinds, the positions of small material with the loser (Black) to move, and how many of them are mates:
 * every placement of the two kings, a man of White's and, or not, a man of Black's, where White's king is not attacked.
 *
 *     cc -O2 -o small tools/second/small.c && ./small
 */
#include <stdio.h>
#include <stdlib.h>
#include <string.h>

static char men[64]; /* capitals are White's */

static const int JUMPS[8][2] = {{1, 2}, {2, 1}, {2, -1}, {1, -2}, {-1, -2}, {-2, -1}, {-2, 1}, {-1, 2}};
static const int WAYS[8][2] = {{0, 1}, {1, 0}, {0, -1}, {-1, 0}, {1, 1}, {1, -1}, {-1, -1}, {-1, 1}}; /* the last four are diagonals */

static int inside(int file, int rank) { return file >= 0 && file < 8 && rank >= 0 && rank < 8; }
static int is_white(char man) { return man >= 'A' && man <= 'Z'; }
static char kind_of(char man) { return man >= 'a' ? man - 32 : man; }
static int goes(char kind, int way) { return kind == 'Q' || (kind == 'R' && way < 4) || (kind == 'B' && way >= 4); }

static int attacked(int square, int by_white) {
    int file = square & 7, rank = square >> 3;
    for (int d = 0; d < 8; d++) {
        int f = file + JUMPS[d][0], r = rank + JUMPS[d][1];
        if (inside(f, r) && men[r * 8 + f] && is_white(men[r * 8 + f]) == by_white && kind_of(men[r * 8 + f]) == 'N') return 1;
        f = file + WAYS[d][0], r = rank + WAYS[d][1];
        for (int steps = 1; inside(f, r); steps++, f += WAYS[d][0], r += WAYS[d][1]) {
            char man = men[r * 8 + f];
            if (!man) continue;
            if (is_white(man) == by_white && ((kind_of(man) == 'K' && steps == 1) || goes(kind_of(man), d))) return 1;
            break;
        }
    }
    return 0;
}

static int king_of_black(void) { return (int)((char *)memchr(men, 'k', 64) - men); }

static int is_legal(int from, int to) {
    char moved = men[from], taken = men[to];
    if (taken && !is_white(taken)) return 0;
    men[to] = moved, men[from] = 0;
    int legal = !attacked(king_of_black(), 1);
    men[from] = moved, men[to] = taken;
    return legal;
}

static int black_has_a_move(void) {
    for (int from = 0; from < 64; from++) {
        char kind = kind_of(men[from]);
        if (!men[from] || is_white(men[from])) continue;
        for (int d = 0; d < 8; d++) {
            const int *step = kind == 'N' ? JUMPS[d] : WAYS[d];
            if (kind != 'N' && kind != 'K' && !goes(kind, d)) continue;
            for (int f = (from & 7) + step[0], r = (from >> 3) + step[1]; inside(f, r); f += step[0], r += step[1]) {
                if (is_legal(from, r * 8 + f)) return 1;
                if (men[r * 8 + f] || kind == 'N' || kind == 'K') break;
            }
        }
    }
    return 0;
}

int main(void) {
    const char *own = "NBRQ", *other = "-nbrq";
    for (int i = 0; own[i]; i++)
        for (int j = 0; other[j]; j++) {
            long positions = 0, mates = 0;
            for (int place = 0; place < 64 * 64 * 64 * (j ? 64 : 1); place++) {
                int black = place & 63, white = place >> 6 & 63, man = place >> 12 & 63, against = place >> 18;
                if (black == white || man == black || man == white || (j && (against == black || against == white || against == man))) continue;
                memset(men, 0, 64);
                men[black] = 'k', men[white] = 'K', men[man] = own[i];
                if (j) men[against] = other[j];
                if (attacked(white, 0)) continue;
                positions += 1;
                mates += attacked(black, 1) && !black_has_a_move();
            }
            printf("%c against %c: %ld positions, %ld mates\n", own[i], other[j], positions, mates);
        }
    return 0;
}
