/* The judge for C: a start, one line at a time, a piece of many lines, the leaks after Z, and a whole trace. It is the library `exported`; a recorder
 * does not need it. weir_step judges a line as it comes, and gives its findings as numbers. weir_piece judges all lines of a piece, which is faster,
 * and gives their findings as lines of the report. weir_judge wants a whole trace in memory, and gives its whole report.
 *
 * All that the judge knows of a trace stands in tables that the caller lends with each call, the same ones from a start on. It allocates nothing and
 * keeps nothing between calls, so several traces may be judged at once, each with tables of its own. Any contents are safe, and so is any length.
 *
 *   rows       reference rows, WEIR_REFERENCE numbers each: thread (0 for a global or weak), handle, frame (0 likewise), the line that made it,
 *              its stated class (0 where none is)
 *   pins       pin rows, WEIR_PIN numbers each: thread (0 unless critical), family 0 to 11, buffer, the line that made it
 *   marks      one bit for each reference row, 64 to a word: it is used
 *   pin_marks  one bit for each pin row
 *   book       WEIR_BOOK numbers: the threads, and the count of lines. With fewer weir_step, weir_leaks and, at a line, weir_piece give -8, and
 *              weir_judge 0
 *   classes    WEIR_CLASSES numbers: that of class c, at classes[c - 1], is its super, 0 where no K declared it; those of the reserved classes 1 to 4
 *              stay 0. With fewer weir_step and, at a line, weir_piece give -8, and weir_judge 0; weir_leaks does not need it. Behind them stand
 *              (classes_length - WEIR_CLASSES) / WEIR_IDENTITY places for identities, WEIR_IDENTITY numbers each: identity (0 where the place is
 *              free), sort, static, final. Counted from 0, the place of an identity x is the first that is free or has x, from (x / 4) % places on
 *              to the last and then from 0 to the one before: M puts it there, and no line takes it away. A table of WEIR_CLASSES numbers alone
 *              is whole, and has no place: no M has room then (-7)
 *
 * There is room for as many handles, and buffers, as the lesser of rows and marks, at most 65,536, and for as many identities as there are whole places.
 * `./judge` lends 1,024 rows, 256 pins and 1,024 places, so a class table of 8,191 numbers.
 * The numbers of rows, pins, classes, findings and leaks are as wide as a handle, 64 bits, also where they are a thread, a line, a class or a flag.
 * Every length is in numbers (rows, pins, classes, found, far, leaks), words (marks, pin_marks, book) or bytes (line, piece, trace, out). A pointer may
 * be NULL only where its length is 0, and no two of the slices overlap.
 */
#ifndef WEIR_JUDGE_H
#define WEIR_JUDGE_H

#include <stddef.h>
#include <stdint.h>

#ifdef __cplusplus
extern "C" {
#endif

/* Numbers to a reference row, to a pin row and to a place for an identity, and the numbers of a whole book and of a whole class table. */
#define WEIR_REFERENCE 5
#define WEIR_PIN 4
#define WEIR_IDENTITY 4
#define WEIR_BOOK 4488
#define WEIR_CLASSES 4095

/* Numbers to a finding, and those of the most findings that a line has. */
#define WEIR_FINDING 4
#define WEIR_FOUND 24

/* Numbers to a leak. */
#define WEIR_LEAK 4

/* weir_step: `found` holds fewer than WEIR_FOUND numbers. */
#define WEIR_SHORT_FOUND (-100)

/* weir_piece, why it stopped: more is to be read; `out` may have no room for the findings of one more line; the trace is at its end. */
#define WEIR_MORE 0
#define WEIR_FULL 1
#define WEIR_END 2

/* The bytes of `out` that the findings of a line may need, and the numbers that tell how far it came. */
#define WEIR_SHOWN 504
#define WEIR_FAR 3

/* weir_piece: `far` holds fewer than WEIR_FAR numbers. */
#define WEIR_SHORT_FAR (-101)

/* Clears all rows, marks, book, class table and places. */
void weir_start(uint64_t *rows, size_t rows_length, uint64_t *marks, size_t marks_length, uint64_t *pins, size_t pins_length,
                uint64_t *pin_marks, size_t pin_marks_length, uint64_t *book, size_t book_length, uint64_t *classes,
                size_t classes_length);

/* Judges one line, all its bytes with the LF. Returns how many findings it has, 0 to 6: they are left at the front of `found`, line, rule, place and
 * thing of each. Below 0 it is the refusal, -1 to -10 (docs/RULES.md), or WEIR_SHORT_FOUND, and nothing is changed.
 */
int32_t weir_step(const uint8_t *line, size_t line_length, uint64_t *rows, size_t rows_length, uint64_t *marks, size_t marks_length,
                  uint64_t *pins, size_t pins_length, uint64_t *pin_marks, size_t pin_marks_length, uint64_t *book, size_t book_length,
                  uint64_t *classes, size_t classes_length, uint64_t *found, size_t found_length);

/* Judges the lines of a piece of a trace, one after another, over tables as weir_start cleared them or as the calls before left them. `ended` is 0
 * where more of the trace may follow the piece, and any other number where the trace ends behind it. The piece may be cut anywhere: a line that
 * is not whole is left till more is read; at the end of the trace it is judged as it is, and refused.
 *
 * The findings are left at the front of `out`, as lines of the report; what is behind them stays. Left at the front of `far` are how many bytes of the
 * piece were taken, how many bytes of findings were put, and how many findings these are. Each line that is accepted has its LF, so as many lines were
 * accepted as there are LFs among the bytes taken. Returns why it stopped:
 *
 *   WEIR_MORE   all whole lines of the piece are judged. The bytes that were not taken, at most 224, are handed in again, in front of what is read next
 *   WEIR_FULL   fewer than WEIR_SHOWN bytes of `out` are left. Empty it, and call again with the rest of the piece. Where `out` has WEIR_SHOWN bytes
 *               or more, a line at least was taken
 *   WEIR_END    the trace is at its end
 *   below 0     the refusal, -1 to -10 (docs/RULES.md), of the line behind the bytes taken, which changed nothing; or WEIR_SHORT_FAR, and nothing at
 *               all is touched
 *
 * Rows are found by words on the stack: a call takes some 330 KB of it, whatever the piece. Each call fills those words anew, so pieces are best of 64 KiB
 * or more, and `out` so long that it is seldom full. A piece shorter than 4,096 bytes is judged without them, no faster than by weir_step.
 */
int32_t weir_piece(const uint8_t *piece, size_t piece_length, uint32_t ended, uint64_t *rows, size_t rows_length, uint64_t *marks,
                   size_t marks_length, uint64_t *pins, size_t pins_length, uint64_t *pin_marks, size_t pin_marks_length, uint64_t *book,
                   size_t book_length, uint64_t *classes, size_t classes_length, uint8_t *out, size_t out_length, uint64_t *far,
                   size_t far_length);

/* Lists what is outstanding and alive after Z. Returns how many leaks there are: they are left at the front of `leaks`, rule, thread, value and making
 * line of each, ordered by making line, then rule and row; what is behind them stays. Below 0 nothing is written: -8 the book is not fit, -4 there
 * was no Z yet, -7 there are more leaks than `leaks` holds. WEIR_LEAK numbers for each row that is lent are always enough.
 */
int32_t weir_leaks(const uint64_t *rows, size_t rows_length, const uint64_t *marks, size_t marks_length, const uint64_t *pins,
                   size_t pins_length, const uint64_t *pin_marks, size_t pin_marks_length, const uint64_t *book, size_t book_length,
                   uint64_t *leaks, size_t leaks_length);

/* Judges a whole trace from a start of its own. Returns how many bytes its report has; it stands at the front of `out` where that is no shorter, else
 * nothing is written there. 0: the book or the class table is short, and nothing was touched. The tables are left as the run left them, so weir_leaks
 * may follow. A call takes some 335 KB of stack, for words by which rows are found.
 */
size_t weir_judge(const uint8_t *trace, size_t trace_length, uint64_t *rows, size_t rows_length, uint64_t *marks, size_t marks_length,
                  uint64_t *pins, size_t pins_length, uint64_t *pin_marks, size_t pin_marks_length, uint64_t *book, size_t book_length,
                  uint64_t *classes, size_t classes_length, uint8_t *out, size_t out_length);

#ifdef __cplusplus
}
#endif

#endif
