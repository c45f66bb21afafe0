/* Judges the trace on standard input, piece by piece, and prints what `./judge --leaks` prints: findings as they come. */
#include <inttypes.h>
#include <stdio.h>
#include <string.h>

#include "weir_judge.h"

/* The bytes of the trace that are held at once, 225 or more, and those of findings, WEIR_SHOWN or more. */
#ifndef PIECE
#define PIECE 65536
#define OUT 65536
#endif

enum { REFERENCE_ROWS = 1024, PIN_ROWS = 256, IDENTITIES = 1024, WORD = 64 };

static uint64_t rows[REFERENCE_ROWS * WEIR_REFERENCE], pins[PIN_ROWS * WEIR_PIN];
static uint64_t marks[REFERENCE_ROWS / WORD], pin_marks[PIN_ROWS / WORD], book[WEIR_BOOK];
static uint64_t classes[WEIR_CLASSES + IDENTITIES * WEIR_IDENTITY];
static uint64_t leaks[(REFERENCE_ROWS + PIN_ROWS) * WEIR_LEAK];
static uint8_t piece[PIECE], out[OUT];

#define COUNT(slice) (sizeof(slice) / sizeof((slice)[0]))
#define TABLES rows, COUNT(rows), marks, COUNT(marks), pins, COUNT(pins), pin_marks, COUNT(pin_marks), book, COUNT(book)
#define CLASSES classes, COUNT(classes)

/* How many lines end in these bytes. */
static unsigned long lines_in(const uint8_t *bytes, size_t length)
{
    unsigned long lines = 0;

    for (size_t i = 0; i < length; i++)
        lines += bytes[i] == '\n';
    return lines;
}

int main(void)
{
    uint64_t far[WEIR_FAR];
    unsigned long lines = 0, findings = 0;
    size_t held = 0, taken;
    int32_t stop = WEIR_MORE, refusal, count;

    weir_start(TABLES, CLASSES);
    while (stop == WEIR_MORE || stop == WEIR_FULL) {
        if (stop == WEIR_MORE)
            held += fread(piece + held, 1, sizeof piece - held, stdin);
        if (ferror(stdin)) {
            perror("standard input");
            return 1;
        }
        stop = weir_piece(piece, held, feof(stdin) != 0, TABLES, CLASSES, out, sizeof out, far, COUNT(far));
        taken = (size_t)far[0];
        lines += lines_in(piece, taken);
        findings += (unsigned long)far[2];
        fwrite(out, 1, (size_t)far[1], stdout);
        held -= taken;
        memmove(piece, piece + taken, held);
    }
    refusal = stop < 0 ? -stop : 0;
    count = weir_leaks(TABLES, leaks, COUNT(leaks));
    printf("end\t%s\t%lu\t%d\t%lu\n", refusal ? "refused" : count < 0 ? "open" : "closed", lines, refusal, findings);
    for (const uint64_t *leak = leaks; count > 0; leak += WEIR_LEAK, count--)
        printf("leak\t%" PRIu64 "\t%" PRIu64 "\t%" PRIu64 "\t%" PRIu64 "\n", leak[0], leak[1], leak[2], leak[3]);
    return 0;
}
