/* cha, the chess adjudicator, as a library: rules on games in PGN and positions in FEN, and checks certificates. See docs/LIBRARY.md.
 *
 * Both functions keep nothing between two calls, start no thread, and may be called from several threads at once. They take memory
 * by malloc and realloc and give it back by free before they return. They read no file and no environment.
 *
 * No pointer may be null, and each must be valid for its length, also where that is 0; the output must not overlap the inputs. A call
 * needs a stack of 256 kB.
 */
#ifndef CHA_H
#define CHA_H

#include <stddef.h>
#include <stdint.h>

#ifdef __cplusplus
extern "C" {
#endif

/* What cha_run and cha_check answer. */
enum cha_answer {
    CHA_DONE = 0,         /* the whole input was judged; of a certificate, that it is accepted */
    CHA_USAGE = 1,        /* the words are not in the language of the command words */
    CHA_TOO_LONG = 4,     /* the input has more than 268,435,456 bytes */
    CHA_NO_MEMORY = 5,    /* malloc or realloc refused memory */
    CHA_NOT_ACCEPTED = 6, /* the certificate is not accepted */
    CHA_NO_ROOM = 7       /* the output is longer than its room */
};

/* Runs the command that the words name over an input, as the program cha does over its standard input, and writes what the program
 * prints to the front of out.
 *
 * words, words_len  the words after the program's name in UTF-8, with one zero byte between two of them and none at the end
 *                   ("position\0--certs", of 16 bytes)
 * input, input_len  what the program reads: PGN, FEN lines or the text of a certificate
 * out, out_len      room for the output
 * used              afterwards how many bytes the output has; written in every case
 *
 * Where single games or positions cannot be read, the output says so, and the answer is CHA_DONE all the same. After CHA_TOO_LONG and
 * CHA_NO_MEMORY the output is whole blocks, perhaps none, without a summary.
 *
 * A longer text of games is judged in pieces. With --json the last line says "closed":true where the next piece can be judged alone: no
 * game is open, and the next byte begins a line. Where it says false, judge the piece again together with the next one. docs/LIBRARY.md
 * has the steps.
 *
 * With the word correct the output is the text of the games, with the right results; the summary is not handed out.
 *
 * Where the answer is CHA_NO_ROOM, nothing was written, and room for *used bytes is enough. --workers changes nothing: one thread does
 * the work.
 */
uint8_t cha_run(const uint8_t *words, size_t words_len, const uint8_t *input, size_t input_len, uint8_t *out, size_t out_len,
                size_t *used);

/* Checks the text of a certificate. CHA_DONE means: in the position of its first node, no series of legal moves mates for its side.
 * CHA_NOT_ACCEPTED: the bytes are no certificate, or one that does not hold. */
uint8_t cha_check(const uint8_t *text, size_t text_len);

#ifdef __cplusplus
}
#endif

#endif
