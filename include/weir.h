/* Lines of a trace for a recorder written in C: a writer for each kind of line, and a reader that tells what a line says.
 *
 * Writers and reader are two libraries, `recorder` and `reader`; each can be linked without the other, and neither has
 * anything of the judge. They open no file, allocate nothing and keep nothing between calls, so threads may call them at the
 * same time, each with a buffer of its own. A call of the reader takes less than 300 bytes of stack, one of a
 * writer less than 400 (docs/BENCH.md).
 *
 * Numbers:
 *
 *   thread      1 to 16
 *   env         1 to 18446744073709551615
 *   function    4 to 232, the function's place in the JNI function table
 *   handles     0 to 18446744073709551615, 0 being null. In a handle the remainder by 4 is its kind: 1 local, 2 global,
 *               3 weak. Method and field identities have remainder 0. Buffers may have each remainder.
 *   classes     1 to 4095. 1 to 4 stand for object, class, string and throwable; a judge takes another once K declares it.
 *   sorts       1 method, 2 field
 *
 * Array releases in commit mode (JNI_COMMIT) are not recorded: they free nothing, and a judge would take them for releases.
 */
#ifndef WEIR_H
#define WEIR_H

#include <stddef.h>
#include <stdint.h>

#ifdef __cplusplus
extern "C" {
#endif

/* What is returned instead of a line, below zero. */
#define WEIR_NO_LINE (-1)
#define WEIR_FORM (-2)
#define WEIR_BAD (-3)
#define WEIR_SHORT (-7)

/* The most bytes of a line: 224 and its LF. */
#define WEIR_LINE 225

/* The slots for N's handles. */
#define WEIR_HANDLES 8

/* The slots for a line's numbers: N has the most, thread, env and eight handles. */
#define WEIR_NUMBERS 10

/* ---- the writers, library `recorder`
 *
 * Each writes one whole line, LF included, at the start of a buffer that the caller lends.
 *
 *   d, length   the buffer: `length` bytes that the caller may write. d may be NULL only where length is 0.
 *
 * Every writer returns
 *
 *   above 0     how many bytes the line has, LF included: d[0] to d[r - 1]. There is no NUL after them.
 *   WEIR_BAD    -3: the numbers are no line that a judge would take: one is out of its range, a handle of N is null or no
 *               local, an identity of M is 0 or no multiple of 4, or something is not what the function's row in the table of
 *               JNI functions (crates/facts/specs/Table.antt) has.
 *   WEIR_SHORT  -7: the line has more bytes than the buffer. Given only where the numbers are good.
 *
 * and nothing else. On a refusal (WEIR_BAD, WEIR_SHORT) nothing is written. Bytes past a written line stay as they were.
 * No line has more than WEIR_LINE bytes, so a buffer of that size is never short.
 */

/* N: Java enters native.
 *
 *   count    0 to 8: how many handles the native was given. Null arguments are left out.
 *   handles  eight slots, always all eight, apart from d. The first `count` are the handles, of local kind (remainder 1);
 *            each slot past them is 0. They are only read.
 */
int32_t weir_enter(uint8_t *d, size_t length, uint32_t thread, uint64_t env, uint32_t count,
                   const uint64_t handles[WEIR_HANDLES]);

/* X: native returns to Java.
 *
 *   result   0 to 18446744073709551615, of any kind; 0 where no object is returned.
 */
int32_t weir_leave(uint8_t *d, size_t length, uint32_t thread, uint64_t result);

/* C: C calls a JNI function.
 *
 *   a, b, c  the function's handles, identities and buffers, in the order of its row; a place that the row does not use is 0.
 *            A used place may be 0 (null) and of any kind: that is for the judge to condemn.
 *   n        the capacity that 19 (PushLocalFrame) and 26 (EnsureLocalCapacity) ask for, any signed 32-bit number; else 0.
 */
int32_t weir_call(uint8_t *d, size_t length, uint32_t thread, uint64_t env, uint32_t function, uint64_t a, uint64_t b,
                  uint64_t c, int32_t n);

/* R: the function returns.
 *
 *   result   the handle (of the kind in the function's row, or 0), the identity (remainder 0) or the buffer that it gives;
 *            0 where it gives none, and 0 where it gives a status.
 *   status   what 19, 26, 217 (MonitorEnter) and 218 (MonitorExit) give, any signed 32-bit number; else 0.
 *   pending  1 where an exception is pending after the call, else 0.
 */
int32_t weir_return(uint8_t *d, size_t length, uint32_t thread, uint32_t function, uint64_t result, int32_t status,
                    uint32_t pending);

/* A: a thread that starts in C attaches itself. That nothing is open on it, and that it has had no other env, is for the
 * judge to look at.
 */
int32_t weir_attach(uint8_t *d, size_t length, uint32_t thread, uint64_t env);

/* D: it detaches itself. That it is attached, and that no call of its own is open, is for the judge to look at. */
int32_t weir_detach(uint8_t *d, size_t length, uint32_t thread);

/* K: declares a class.
 *
 *   class_number  1 to 4095. That it is not declared yet, nor 1 to 4, is for the judge to look at.
 *   super_number  1 to 4095, the class above it; that it is declared, or 1 to 4, is for the judge too.
 */
int32_t weir_declare(uint8_t *d, size_t length, uint32_t class_number, uint32_t super_number);

/* O: states the class of a handle.
 *
 *   handle        0 to 18446744073709551615, of any kind. That it is alive for the thread, so no null and no identity, is
 *                 for the judge to look at.
 *   class_number  1 to 4095; that it is declared, or 1 to 4, is for the judge too.
 */
int32_t weir_state(uint8_t *d, size_t length, uint32_t thread, uint64_t handle, uint32_t class_number);

/* M: states what a method or field identity is. It may stand anywhere before Z, and is best written right after the R that
 * gave the identity: that R has its number alone, and a call with an identity that no M states is condemned (rule 5). A later
 * M of the same identity counts from its line on.
 *
 *   identity      a multiple of 4, not 0
 *   sort          1 method, 2 field
 *   class_number  1 to 4095, the class that has it; that it is declared, or 1 to 4, is for the judge to look at.
 *   is_static     1 where it is static, else 0
 *   is_final      1 where it is final, else 0
 */
int32_t weir_identify(uint8_t *d, size_t length, uint64_t identity, uint32_t sort, uint32_t class_number, uint32_t is_static,
                      uint32_t is_final);

/* Z: the end of the run. */
int32_t weir_end(uint8_t *d, size_t length);

/* ---- the reader, library `reader`
 *
 * Reads one line and leaves its numbers, in the order in which they stand there, at the front of an array that the caller
 * lends.
 *
 *   line, length  all bytes of the line, with its LF. line may be NULL only where length is 0.
 *   numbers       ten slots, always all ten, apart from the line
 *   count         how many numbers the line has, apart from both
 *
 * Returns
 *
 *   above 0       the line's letter. Its numbers are numbers[0] to numbers[*count - 1]; the slots past them are 0.
 *   WEIR_NO_LINE  -1: it has over 224 bytes before its LF, or its last byte is no LF, or it has no byte at all.
 *   WEIR_FORM     -2: its letter, the count of its fields or the form of a number is wrong; an LF inside is a wrong form.
 *   WEIR_BAD      -3: a number is out of its range, a handle of N is null or no local, an identity of M is 0 or no multiple
 *                 of 4, or something is not what the function's row in the table of JNI functions has.
 *
 * and nothing else, in this order where several fit. On a refusal nothing is written. What the numbers are:
 *
 *   letter  count    numbers
 *   'N'     2 to 10  thread, env, then the locals that the native was given
 *   'X'     2        thread, result
 *   'C'     7        thread, env, function, a, b, c, n
 *   'R'     4        thread, function, result or status, pending
 *   'A'     2        thread, env
 *   'D'     1        thread
 *   'K'     2        class, super
 *   'O'     3        thread, handle, class
 *   'M'     5        identity, sort, class, static, final
 *   'Z'     0
 *
 * C's n may be below zero, and so may R's status, which stands in place of the result where the function gives one (19, 26,
 * 217 and 218). weir_signed(numbers[6]) and weir_signed(numbers[2]) are these; every other number is itself.
 *
 * What was written is read as the numbers that it was written of, and what is read is written again as the same bytes.
 */
int32_t weir_read(const uint8_t *line, size_t length, uint64_t numbers[WEIR_NUMBERS], uint32_t *count);

/* The capacity or the status that a line's number stands for: below zero it is its two's complement in 64 bits. */
static inline int32_t weir_signed(uint64_t number)
{
    return number <= INT32_MAX ? (int32_t)number : -(int32_t)((UINT64_MAX - number) & INT32_MAX) - 1;
}

#ifdef __cplusplus
}
#endif

#endif
