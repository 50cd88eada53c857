/*
 * Looks for mates among the positions that legal moves reach, without sets, tables or certificates, to try what `cha` calls
 * unwinnable.
 *
 *     cc -O2 -o explore tools/second/explore.c
 *     ./explore N < SIDES.txt
 *
 * Each line of the input is a position in FEN, a tab, and the side that is to mate, w or b. Each line of the output repeats it,
 * with `found`, `closed` (all that can be reached was expanded, and there is no mate) or `none` (N positions were expanded), and
 * the number of positions that were expanded. Those in which the other king stands nearer to a corner are taken first.
 */
#include <stdint.h>
#include <stdio.h>
#include <stdlib.h>
#include <string.h>

typedef struct {
    char men[64]; /* a1 first; a letter of FEN, or 0 */
    int black;    /* Black is to move */
    int rights;   /* 1, 2, 4, 8 for K, Q, k, q */
    int target;   /* the en passant target, or -1 */
} Position;

typedef struct {
    unsigned char from, to;
    char promoted; /* 0 where no pawn is promoted */
} Move;

enum { MOST_MOVES = 256, SLOTS = 1 << 22, MOST_NODES = 4000000, BUCKETS = 64 };

static const int jumps[8][2] = {{1, 2}, {2, 1}, {2, -1}, {1, -2}, {-1, -2}, {-2, -1}, {-2, 1}, {-1, 2}};
static const int steps[8][2] = {{0, 1}, {1, 0}, {0, -1}, {-1, 0}, {1, 1}, {1, -1}, {-1, -1}, {-1, 1}}; /* four straight, four diagonal */

static int is_black(char man) { return man >= 'a'; }
static char kind_of(char man) { return is_black(man) ? man - 32 : man; }
static int is_on(int file, int rank) { return file >= 0 && file < 8 && rank >= 0 && rank < 8; }

static int king_of(const Position *p, int black) {
    char king = black ? 'k' : 'K';
    int at = 0;
    while (p->men[at] != king) at++;
    return at;
}

/* A man of the side attacks the square. */
static int is_attacked(const Position *p, int at, int black) {
    int file = at & 7, rank = at >> 3;
    for (int d = 0; d < 8; d++) {
        int x = file + jumps[d][0], y = rank + jumps[d][1];
        if (is_on(x, y) && p->men[y * 8 + x] == (black ? 'n' : 'N')) return 1;
    }
    int behind = black ? rank + 1 : rank - 1;
    for (int side = -1; side < 2; side += 2)
        if (is_on(file + side, behind) && p->men[behind * 8 + file + side] == (black ? 'p' : 'P')) return 1;
    for (int d = 0; d < 8; d++) {
        int x = file + steps[d][0], y = rank + steps[d][1], far = 1;
        while (is_on(x, y) && !p->men[y * 8 + x]) x += steps[d][0], y += steps[d][1], far++;
        if (!is_on(x, y) || is_black(p->men[y * 8 + x]) != black) continue;
        char kind = kind_of(p->men[y * 8 + x]);
        if (kind == 'Q' || (kind == 'K' && far == 1) || kind == (d < 4 ? 'R' : 'B')) return 1;
    }
    return 0;
}

static int rights_on(int at) {
    switch (at) {
    case 4: return 3;
    case 60: return 12;
    case 7: return 1;
    case 0: return 2;
    case 63: return 4;
    case 56: return 8;
    default: return 0;
    }
}

static Position after(const Position *p, Move m) {
    Position q = *p;
    char man = q.men[m.from];
    int along = abs((m.from & 7) - (m.to & 7));
    if (kind_of(man) == 'P' && m.to == p->target && along == 1 && !p->men[m.to]) q.men[m.to + (p->black ? 8 : -8)] = 0;
    q.men[m.from] = 0;
    q.men[m.to] = m.promoted ? m.promoted : man;
    if (kind_of(man) == 'K' && along == 2) {
        int home = m.from & 56, rook = home + ((m.to & 7) == 6 ? 7 : 0), new = home + ((m.to & 7) == 6 ? 5 : 3);
        q.men[new] = q.men[rook];
        q.men[rook] = 0;
    }
    q.rights &= ~(rights_on(m.from) | rights_on(m.to));
    q.target = kind_of(man) == 'P' && abs(m.from - m.to) == 16 ? (m.from + m.to) / 2 : -1;
    q.black = !p->black;
    return q;
}

static int add(Move *moves, int count, int from, int to, char promoted) {
    moves[count] = (Move){(unsigned char)from, (unsigned char)to, promoted};
    return count + 1;
}

static int add_pawn(const Position *p, int at, Move *moves, int count) {
    int ahead = p->black ? -8 : 8, file = at & 7, to[4], n = 0;
    if (!p->men[at + ahead]) {
        to[n++] = at + ahead;
        if (at >> 3 == (p->black ? 6 : 1) && !p->men[at + 2 * ahead]) to[n++] = at + 2 * ahead;
    }
    for (int side = -1; side < 2; side += 2) {
        int there = at + ahead + side;
        if (file + side < 0 || file + side > 7) continue;
        if ((p->men[there] && is_black(p->men[there]) != p->black) || there == p->target) to[n++] = there;
    }
    for (int i = 0; i < n; i++) {
        if (to[i] >> 3 != (p->black ? 0 : 7)) count = add(moves, count, at, to[i], 0);
        else
            for (int k = 0; k < 4; k++) count = add(moves, count, at, to[i], (p->black ? "qrbn" : "QRBN")[k]);
    }
    return count;
}

static int add_castling(const Position *p, int at, Move *moves, int count) {
    int rights = p->black ? p->rights >> 2 : p->rights & 3, other = !p->black;
    if (at != (p->black ? 60 : 4) || is_attacked(p, at, other)) return count;
    if ((rights & 1) && !p->men[at + 1] && !p->men[at + 2] && !is_attacked(p, at + 1, other)) count = add(moves, count, at, at + 2, 0);
    if ((rights & 2) && !p->men[at - 1] && !p->men[at - 2] && !p->men[at - 3] && !is_attacked(p, at - 1, other))
        count = add(moves, count, at, at - 2, 0);
    return count;
}

static int add_piece(const Position *p, int at, char kind, Move *moves, int count) {
    const int(*ways)[2] = kind == 'N' ? jumps : steps;
    int is_leaper = kind == 'N' || kind == 'K';
    for (int d = kind == 'B' ? 4 : 0; d < (kind == 'R' ? 4 : 8); d++) {
        int x = at & 7, y = at >> 3;
        do {
            x += ways[d][0], y += ways[d][1];
            if (!is_on(x, y)) break;
            char there = p->men[y * 8 + x];
            if (!there || is_black(there) != p->black) count = add(moves, count, at, y * 8 + x, 0);
            if (there) break;
        } while (!is_leaper);
    }
    return kind == 'K' ? add_castling(p, at, moves, count) : count;
}

static int legal(const Position *p, Move *moves) {
    Move all[MOST_MOVES];
    int n = 0, count = 0;
    for (int at = 0; at < 64; at++) {
        char man = p->men[at];
        if (!man || is_black(man) != p->black) continue;
        n = kind_of(man) == 'P' ? add_pawn(p, at, all, n) : add_piece(p, at, kind_of(man), all, n);
    }
    for (int i = 0; i < n; i++) {
        Position q = after(p, all[i]);
        if (!is_attacked(&q, king_of(&q, p->black), q.black)) moves[count++] = all[i];
    }
    return count;
}

static int is_mated(const Position *p) {
    Move moves[MOST_MOVES];
    return is_attacked(p, king_of(p, p->black), !p->black) && legal(p, moves) == 0;
}

static int king_steps(int a, int b) {
    int files = abs((a & 7) - (b & 7)), ranks = abs((a >> 3) - (b >> 3));
    return files > ranks ? files : ranks;
}

/* How far a position is from a mate by the side, as a number below 64. */
static int guide(const Position *p, int black) {
    static const int corners[4] = {0, 7, 56, 63};
    int value = 0, own_king = king_of(p, black), king = king_of(p, !black), nearest = 63;
    for (int at = 0; at < 64; at++)
        if (p->men[at] && is_black(p->men[at]) != black) value += 3;
    if (!memchr(p->men, black ? 'q' : 'Q', 64)) value += memchr(p->men, black ? 'r' : 'R', 64) ? 8 : 16;
    for (int i = 0; i < 4; i++) {
        int here = 2 * king_steps(king, corners[i]) + 3 * abs(king_steps(own_king, corners[i]) - 2);
        if (here < nearest) nearest = here;
    }
    value += nearest;
    return value < BUCKETS ? value : BUCKETS - 1;
}

static Position *nodes;
static uint32_t *next_in_bucket, *slots, *used_in;
static uint32_t count, round_number;

static uint64_t mixed(const Position *p) {
    uint64_t h = 0x9e3779b97f4a7c15ULL;
    for (int at = 0; at < 64; at++) h = (h ^ (uint64_t)(unsigned char)p->men[at]) * 0x100000001b3ULL, h ^= h >> 29;
    return (h ^ (uint64_t)(p->black * 64 + p->rights) * 0xbf58476d1ce4e5b9ULL) ^ (uint64_t)(p->target + 2) << 40;
}

static int is_same(const Position *a, const Position *b) {
    return a->black == b->black && a->rights == b->rights && a->target == b->target && !memcmp(a->men, b->men, 64);
}

/* Keeps a position that is new, and says whether it was. */
static int keep(const Position *p) {
    uint64_t h = mixed(p);
    uint32_t slot = (uint32_t)(h ^ h >> 32) & (SLOTS - 1);
    for (; used_in[slot] == round_number; slot = (slot + 1) & (SLOTS - 1))
        if (is_same(&nodes[slots[slot]], p)) return 0;
    if (count == MOST_NODES) exit(2);
    used_in[slot] = round_number;
    slots[slot] = count;
    nodes[count++] = *p;
    return 1;
}

static const char *explore(const Position *root, int black, int most, int *expanded) {
    uint32_t heads[BUCKETS];
    memset(heads, 0xff, sizeof heads);
    count = 0;
    round_number++;
    *expanded = 0;
    if (root->black != black && is_mated(root)) return "found";
    keep(root);
    next_in_bucket[0] = UINT32_MAX;
    heads[0] = 0;
    for (;;) {
        int bucket = 0;
        while (bucket < BUCKETS && heads[bucket] == UINT32_MAX) bucket++;
        if (bucket == BUCKETS) return "closed";
        if (*expanded == most) return "none";
        Position here = nodes[heads[bucket]];
        heads[bucket] = next_in_bucket[heads[bucket]];
        ++*expanded;
        Move moves[MOST_MOVES];
        int n = legal(&here, moves);
        for (int i = 0; i < n; i++) {
            Position q = after(&here, moves[i]);
            if (q.black != black && is_mated(&q)) return "found";
            if (!keep(&q)) continue;
            int into = guide(&q, black);
            next_in_bucket[count - 1] = heads[into];
            heads[into] = count - 1;
        }
    }
}

static Position read_fen(const char *text) {
    static const char rights[] = "KQkq";
    Position p = {.target = -1};
    int file = 0, rank = 7;
    for (; *text && *text != ' '; text++) {
        if (*text == '/') rank--, file = 0;
        else if (*text >= '1' && *text <= '8') file += *text - '0';
        else p.men[rank * 8 + file++] = *text;
    }
    p.black = text[1] == 'b';
    for (text += 3; *text && *text != ' '; text++) {
        const char *right = strchr(rights, *text);
        if (right) p.rights |= 1 << (right - rights);
    }
    if (*text && text[1] >= 'a' && text[1] <= 'h') p.target = text[1] - 'a' + 8 * (text[2] - '1');
    return p;
}

int main(int words, char **word) {
    int most = words > 1 ? atoi(word[1]) : 20000;
    char line[4096];
    nodes = malloc(sizeof *nodes * MOST_NODES);
    next_in_bucket = malloc(sizeof *next_in_bucket * MOST_NODES);
    slots = malloc(sizeof *slots * SLOTS);
    used_in = calloc(SLOTS, sizeof *used_in);
    if (!nodes || !next_in_bucket || !slots || !used_in) return 2;
    while (fgets(line, sizeof line, stdin)) {
        char *tab = strchr(line, '\t');
        if (!tab) continue;
        *tab = 0;
        Position p = read_fen(line);
        int expanded, black = tab[1] == 'b';
        const char *said = explore(&p, black, most, &expanded);
        printf("%s\t%c\t%s\t%d\n", line, tab[1], said, expanded);
    }
    return 0;
}
