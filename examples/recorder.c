/* A recorder's use of weir.h: it writes a small trace to standard output and reads each line back, then tries every refusal.
 *
 * Standard output is the trace alone. What went wrong is said on standard error, and the exit status is then 1.
 */
#include <stdio.h>
#include <string.h>

#include "weir.h"

static int failures = 0;

static void expect(int holds, const char *what)
{
    if (!holds) {
        fprintf(stderr, "recorder: not so: %s\n", what);
        failures++;
    }
}

/* ---- a line, written and read back */

/* The line in d, of which a writer returned r, is read as its letter and the numbers that it was written of, 0 past them. */
static void check(const uint8_t *d, int32_t r, char letter, uint32_t count, const uint64_t numbers[WEIR_NUMBERS])
{
    uint64_t found[WEIR_NUMBERS];
    uint32_t found_count;

    expect(r > 0 && r <= WEIR_LINE && d[r - 1] == '\n', "a line is written");
    if (r <= 0)
        return;
    if (weir_read(d, (size_t)r, found, &found_count) != letter || found_count != count
        || memcmp(found, numbers, sizeof found) != 0) {
        fprintf(stderr, "recorder: not read as it was written: %.*s", (int)r, (const char *)d);
        failures++;
    }
}

static int32_t checked_enter(uint8_t d[WEIR_LINE], uint32_t thread, uint64_t env, uint32_t count,
                             const uint64_t handles[WEIR_HANDLES])
{
    const int32_t r = weir_enter(d, WEIR_LINE, thread, env, count, handles);
    uint64_t numbers[WEIR_NUMBERS] = {thread, env};

    memcpy(numbers + 2, handles, WEIR_HANDLES * sizeof numbers[0]);
    check(d, r, 'N', 2 + count, numbers);
    return r;
}

static int32_t checked_leave(uint8_t d[WEIR_LINE], uint32_t thread, uint64_t result)
{
    const int32_t r = weir_leave(d, WEIR_LINE, thread, result);
    const uint64_t numbers[WEIR_NUMBERS] = {thread, result};

    check(d, r, 'X', 2, numbers);
    return r;
}

static int32_t checked_call(uint8_t d[WEIR_LINE], uint32_t thread, uint64_t env, uint32_t function, uint64_t a, uint64_t b,
                            uint64_t c, int32_t n)
{
    const int32_t r = weir_call(d, WEIR_LINE, thread, env, function, a, b, c, n);
    const uint64_t numbers[WEIR_NUMBERS] = {thread, env, function, a, b, c, (uint64_t)n};

    check(d, r, 'C', 7, numbers);
    return r;
}

/* A function gives a result or a status, and the other is 0. */
static int32_t checked_return(uint8_t d[WEIR_LINE], uint32_t thread, uint32_t function, uint64_t result, int32_t status,
                              uint32_t pending)
{
    const int32_t r = weir_return(d, WEIR_LINE, thread, function, result, status, pending);
    const uint64_t numbers[WEIR_NUMBERS] = {thread, function, status != 0 ? (uint64_t)status : result, pending};

    check(d, r, 'R', 4, numbers);
    return r;
}

static int32_t checked_attach(uint8_t d[WEIR_LINE], uint32_t thread, uint64_t env)
{
    const int32_t r = weir_attach(d, WEIR_LINE, thread, env);
    const uint64_t numbers[WEIR_NUMBERS] = {thread, env};

    check(d, r, 'A', 2, numbers);
    return r;
}

static int32_t checked_detach(uint8_t d[WEIR_LINE], uint32_t thread)
{
    const int32_t r = weir_detach(d, WEIR_LINE, thread);
    const uint64_t numbers[WEIR_NUMBERS] = {thread};

    check(d, r, 'D', 1, numbers);
    return r;
}

static int32_t checked_declare(uint8_t d[WEIR_LINE], uint32_t class_number, uint32_t super_number)
{
    const int32_t r = weir_declare(d, WEIR_LINE, class_number, super_number);
    const uint64_t numbers[WEIR_NUMBERS] = {class_number, super_number};

    check(d, r, 'K', 2, numbers);
    return r;
}

static int32_t checked_state(uint8_t d[WEIR_LINE], uint32_t thread, uint64_t handle, uint32_t class_number)
{
    const int32_t r = weir_state(d, WEIR_LINE, thread, handle, class_number);
    const uint64_t numbers[WEIR_NUMBERS] = {thread, handle, class_number};

    check(d, r, 'O', 3, numbers);
    return r;
}

static int32_t checked_identify(uint8_t d[WEIR_LINE], uint64_t identity, uint32_t sort, uint32_t class_number,
                                uint32_t is_static, uint32_t is_final)
{
    const int32_t r = weir_identify(d, WEIR_LINE, identity, sort, class_number, is_static, is_final);
    const uint64_t numbers[WEIR_NUMBERS] = {identity, sort, class_number, is_static, is_final};

    check(d, r, 'M', 5, numbers);
    return r;
}

static int32_t checked_end(uint8_t d[WEIR_LINE])
{
    const int32_t r = weir_end(d, WEIR_LINE);
    const uint64_t numbers[WEIR_NUMBERS] = {0};

    check(d, r, 'Z', 0, numbers);
    return r;
}

/* ---- a trace */

/* Prints the line in d, of which a writer returned r. */
static void emit(const uint8_t *d, int32_t r)
{
    if (r > 0)
        expect(fwrite(d, 1, (size_t)r, stdout) == (size_t)r, "a line is printed");
}

static void trace(void)
{
    /* as a 64-bit VM gives them; the two locals are equal in their lower 32 bits */
    const uint64_t env = 140102034691320u;
    const uint64_t poll = 140102034703640u;
    const uint64_t arguments[WEIR_HANDLES] = {5, 4294967301u};
    uint8_t d[WEIR_LINE];

    /* class 5 is declared under object */
    emit(d, checked_declare(d, 5, 1));
    /* Java enters a native of thread 1 with two locals, one of class 5 and a string */
    emit(d, checked_enter(d, 1, env, 2, arguments));
    emit(d, checked_state(d, 1, 5, 5));
    emit(d, checked_state(d, 1, 4294967301u, 3));
    /* PushLocalFrame(8) gives 0 */
    emit(d, checked_call(d, 1, env, 19, 0, 0, 0, 8));
    emit(d, checked_return(d, 1, 19, 0, 0, 0));
    /* EnsureLocalCapacity(-5) fails with -1 and an exception */
    emit(d, checked_call(d, 1, env, 26, 0, 0, 0, -5));
    emit(d, checked_return(d, 1, 26, 0, -1, 1));
    /* ExceptionClear */
    emit(d, checked_call(d, 1, env, 17, 0, 0, 0, 0));
    emit(d, checked_return(d, 1, 17, 0, 0, 0));
    /* GetObjectClass of 5 gives a local, GetMethodID an identity: the highest of their kinds */
    emit(d, checked_call(d, 1, env, 31, 5, 0, 0, 0));
    emit(d, checked_return(d, 1, 31, 18446744073709551613u, 0, 0));
    emit(d, checked_call(d, 1, env, 33, 18446744073709551613u, 0, 0, 0));
    emit(d, checked_return(d, 1, 33, 18446744073709551612u, 0, 0));
    /* which is that of a method of class 5, neither static nor final: CallVoidMethod of 5 */
    emit(d, checked_identify(d, 18446744073709551612u, 1, 5, 0, 0));
    emit(d, checked_call(d, 1, env, 61, 5, 18446744073709551612u, 0, 0));
    emit(d, checked_return(d, 1, 61, 0, 0, 0));
    /* GetStringUTFChars of the string gives a buffer, which is released */
    emit(d, checked_call(d, 1, env, 169, 4294967301u, 0, 0, 0));
    emit(d, checked_return(d, 1, 169, 18446744073709551615u, 0, 0));
    emit(d, checked_call(d, 1, env, 170, 4294967301u, 18446744073709551615u, 0, 0));
    emit(d, checked_return(d, 1, 170, 0, 0, 0));
    /* PopLocalFrame with nothing to keep */
    emit(d, checked_call(d, 1, env, 20, 0, 0, 0, 0));
    emit(d, checked_return(d, 1, 20, 0, 0, 0));
    /* back to Java with the local 5 */
    emit(d, checked_leave(d, 1, 5));
    /* thread 2 started in C: it attaches itself, calls FindClass and detaches itself */
    emit(d, checked_attach(d, 2, poll));
    emit(d, checked_call(d, 2, poll, 6, 0, 0, 0, 0));
    emit(d, checked_return(d, 2, 6, 5, 0, 0));
    emit(d, checked_detach(d, 2));
    /* the end */
    emit(d, checked_end(d));
}

/* ---- refusals of the writers */

#define FILL 0xa5

static uint8_t buffer[2 * WEIR_LINE];

static uint8_t *fresh(void)
{
    memset(buffer, FILL, sizeof buffer);
    return buffer;
}

static int is_untouched_from(size_t from)
{
    size_t i;

    for (i = from; i < sizeof buffer; i++)
        if (buffer[i] != FILL)
            return 0;
    return 1;
}

/* r is what a function returned that was lent the fresh buffer */
static void refuses(int32_t r, int32_t number, const char *what)
{
    expect(r == number, what);
    expect(is_untouched_from(0), "nothing is written on a refusal");
}

static void bad_events(void)
{
    const uint64_t none[WEIR_HANDLES] = {0};
    const uint64_t eight[WEIR_HANDLES] = {1, 5, 9, 13, 17, 21, 25, 29};
    const uint64_t gap[WEIR_HANDLES] = {5, 0, 9};
    const uint64_t wide_gap[WEIR_HANDLES] = {5, 4294967296u, 9};
    const uint64_t global[WEIR_HANDLES] = {5, 6};
    const uint64_t highest_global[WEIR_HANDLES] = {18446744073709551614u};
    const size_t size = sizeof buffer;

    refuses(weir_enter(fresh(), size, 0, 100, 0, none), WEIR_BAD, "N of thread 0 is bad");
    refuses(weir_enter(fresh(), size, 17, 100, 0, none), WEIR_BAD, "N of thread 17 is bad");
    refuses(weir_enter(fresh(), size, 1, 0, 0, none), WEIR_BAD, "N of env 0 is bad");
    refuses(weir_enter(fresh(), size, 1, 100, 9, eight), WEIR_BAD, "N of nine handles is bad");
    refuses(weir_enter(fresh(), size, 1, 100, 4294967295u, eight), WEIR_BAD, "N of 4294967295 handles is bad");
    refuses(weir_enter(fresh(), size, 1, 100, 7, eight), WEIR_BAD, "N with a slot past the count is bad");
    refuses(weir_enter(fresh(), size, 1, 100, 1, gap), WEIR_BAD, "N with a slot two past the count is bad");
    refuses(weir_enter(fresh(), size, 1, 100, 1, wide_gap), WEIR_BAD, "N with 4294967296 past the count is bad");
    refuses(weir_enter(fresh(), size, 1, 100, 3, gap), WEIR_BAD, "N with a null handle is bad");
    refuses(weir_enter(fresh(), size, 1, 100, 2, global), WEIR_BAD, "N with a global handle is bad");
    refuses(weir_enter(fresh(), size, 1, 100, 1, highest_global), WEIR_BAD, "N with the highest global is bad");
    refuses(weir_leave(fresh(), size, 0, 0), WEIR_BAD, "X of thread 0 is bad");
    refuses(weir_leave(fresh(), size, 17, 5), WEIR_BAD, "X of thread 17 is bad");
    refuses(weir_call(fresh(), size, 17, 100, 6, 0, 0, 0, 0), WEIR_BAD, "C of thread 17 is bad");
    refuses(weir_call(fresh(), size, 1, 0, 6, 0, 0, 0, 0), WEIR_BAD, "C of env 0 is bad");
    refuses(weir_call(fresh(), size, 1, 100, 3, 0, 0, 0, 0), WEIR_BAD, "C of function 3 is bad");
    refuses(weir_call(fresh(), size, 1, 100, 233, 0, 0, 0, 0), WEIR_BAD, "C of function 233 is bad");
    refuses(weir_call(fresh(), size, 1, 100, 31, 5, 9, 0, 0), WEIR_BAD, "C of 31 with b is bad");
    refuses(weir_call(fresh(), size, 1, 100, 31, 5, 4294967296u, 0, 0), WEIR_BAD, "C of 31 with 4294967296 for b is bad");
    refuses(weir_call(fresh(), size, 1, 100, 31, 5, 0, 4294967296u, 0), WEIR_BAD, "C of 31 with 4294967296 for c is bad");
    refuses(weir_call(fresh(), size, 1, 100, 6, 4294967296u, 0, 0, 0), WEIR_BAD, "C of 6 with 4294967296 for a is bad");
    refuses(weir_call(fresh(), size, 1, 100, 31, 5, 0, 0, 1), WEIR_BAD, "C of 31 with a capacity is bad");
    refuses(weir_call(fresh(), size, 1, 100, 31, 5, 0, 0, -1), WEIR_BAD, "C of 31 with capacity -1 is bad");
    refuses(weir_return(fresh(), size, 17, 31, 13, 0, 0), WEIR_BAD, "R of thread 17 is bad");
    refuses(weir_return(fresh(), size, 1, 233, 0, 0, 0), WEIR_BAD, "R of function 233 is bad");
    refuses(weir_return(fresh(), size, 1, 31, 14, 0, 0), WEIR_BAD, "R of 31 with a global is bad");
    refuses(weir_return(fresh(), size, 1, 21, 13, 0, 0), WEIR_BAD, "R of 21 with a local is bad");
    refuses(weir_return(fresh(), size, 1, 226, 14, 0, 0), WEIR_BAD, "R of 226 with a global is bad");
    refuses(weir_return(fresh(), size, 1, 33, 13, 0, 0), WEIR_BAD, "R of 33 with a local is bad");
    refuses(weir_return(fresh(), size, 1, 22, 14, 0, 0), WEIR_BAD, "R of 22 with a result is bad");
    refuses(weir_return(fresh(), size, 1, 31, 18446744073709551614u, 0, 0), WEIR_BAD, "R of 31 with the highest global is bad");
    refuses(weir_return(fresh(), size, 1, 21, 18446744073709551615u, 0, 0), WEIR_BAD, "R of 21 with the highest weak is bad");
    refuses(weir_return(fresh(), size, 1, 226, 18446744073709551613u, 0, 0), WEIR_BAD, "R of 226 with the highest local is bad");
    refuses(weir_return(fresh(), size, 1, 33, 18446744073709551615u, 0, 0), WEIR_BAD, "R of 33 with the highest weak is bad");
    refuses(weir_return(fresh(), size, 1, 22, 4294967296u, 0, 0), WEIR_BAD, "R of 22 with the result 4294967296 is bad");
    refuses(weir_return(fresh(), size, 1, 19, 1, 0, 0), WEIR_BAD, "R of 19 with a result is bad");
    refuses(weir_return(fresh(), size, 1, 19, 4294967296u, 0, 0), WEIR_BAD, "R of 19 with the result 4294967296 is bad");
    refuses(weir_return(fresh(), size, 1, 31, 13, -1, 0), WEIR_BAD, "R of 31 with a status is bad");
    refuses(weir_return(fresh(), size, 1, 31, 13, 0, 2), WEIR_BAD, "R with pending 2 is bad");
    refuses(weir_attach(fresh(), size, 0, 100), WEIR_BAD, "A of thread 0 is bad");
    refuses(weir_attach(fresh(), size, 17, 100), WEIR_BAD, "A of thread 17 is bad");
    refuses(weir_attach(fresh(), size, 1, 0), WEIR_BAD, "A of env 0 is bad");
    refuses(weir_detach(fresh(), size, 0), WEIR_BAD, "D of thread 0 is bad");
    refuses(weir_detach(fresh(), size, 17), WEIR_BAD, "D of thread 17 is bad");
    refuses(weir_declare(fresh(), size, 0, 1), WEIR_BAD, "K of class 0 is bad");
    refuses(weir_declare(fresh(), size, 4096, 1), WEIR_BAD, "K of class 4096 is bad");
    refuses(weir_declare(fresh(), size, 4294967295u, 1), WEIR_BAD, "K of class 4294967295 is bad");
    refuses(weir_declare(fresh(), size, 5, 0), WEIR_BAD, "K under class 0 is bad");
    refuses(weir_declare(fresh(), size, 5, 4096), WEIR_BAD, "K under class 4096 is bad");
    refuses(weir_state(fresh(), size, 0, 5, 3), WEIR_BAD, "O of thread 0 is bad");
    refuses(weir_state(fresh(), size, 17, 5, 3), WEIR_BAD, "O of thread 17 is bad");
    refuses(weir_state(fresh(), size, 1, 5, 0), WEIR_BAD, "O of class 0 is bad");
    refuses(weir_state(fresh(), size, 1, 5, 4096), WEIR_BAD, "O of class 4096 is bad");
    refuses(weir_identify(fresh(), size, 0, 1, 2, 0, 0), WEIR_BAD, "M of null is bad");
    refuses(weir_identify(fresh(), size, 5, 1, 2, 0, 0), WEIR_BAD, "M of a local is bad");
    refuses(weir_identify(fresh(), size, 6, 1, 2, 0, 0), WEIR_BAD, "M of a global is bad");
    refuses(weir_identify(fresh(), size, 7, 1, 2, 0, 0), WEIR_BAD, "M of a weak is bad");
    refuses(weir_identify(fresh(), size, 18446744073709551615u, 1, 2, 0, 0), WEIR_BAD, "M of the highest weak is bad");
    refuses(weir_identify(fresh(), size, 8, 0, 2, 0, 0), WEIR_BAD, "M of sort 0 is bad");
    refuses(weir_identify(fresh(), size, 8, 3, 2, 0, 0), WEIR_BAD, "M of sort 3 is bad");
    refuses(weir_identify(fresh(), size, 8, 1, 0, 0, 0), WEIR_BAD, "M of class 0 is bad");
    refuses(weir_identify(fresh(), size, 8, 1, 4096, 0, 0), WEIR_BAD, "M of class 4096 is bad");
    refuses(weir_identify(fresh(), size, 8, 1, 2, 2, 0), WEIR_BAD, "M with static 2 is bad");
    refuses(weir_identify(fresh(), size, 8, 1, 2, 0, 2), WEIR_BAD, "M with final 2 is bad");
    refuses(weir_identify(fresh(), size, 8, 1, 2, 0, 4294967295u), WEIR_BAD, "M with final 4294967295 is bad");
}

static const uint64_t highest[WEIR_HANDLES] = {18446744073709551613u, 18446744073709551609u, 18446744073709551605u,
                                               18446744073709551601u, 18446744073709551597u, 18446744073709551593u,
                                               18446744073709551589u, 18446744073709551585u};
static const int32_t lowest = -2147483647 - 1;

/* A call that writes `line`, tried with each room: short below the line's length, and the same line from there on. */
#define SHORT(line, call)                                                                                                \
    do {                                                                                                                 \
        const size_t whole = strlen(line);                                                                               \
        size_t room;                                                                                                     \
        for (room = 0; room < whole; room++)                                                                             \
            refuses(call, WEIR_SHORT, "the room is short for " line);                                                    \
        for (room = whole; room <= WEIR_LINE; room++) {                                                                  \
            expect((call) == (int32_t)whole, "the room is enough for " line);                                            \
            expect(memcmp(buffer, line, whole) == 0, "what is written is " line);                                        \
            expect(is_untouched_from(whole), "bytes past the line stay");                                                \
        }                                                                                                                \
    } while (0)

static void short_buffers(void)
{
    const uint64_t none[WEIR_HANDLES] = {0};

    SHORT("N\t1\t100\n", weir_enter(fresh(), room, 1, 100, 0, none));
    SHORT("N\t16\t18446744073709551615\t18446744073709551613\t18446744073709551609\t18446744073709551605\t18446744073709551601"
          "\t18446744073709551597\t18446744073709551593\t18446744073709551589\t18446744073709551585\n",
          weir_enter(fresh(), room, 16, 18446744073709551615u, 8, highest));
    SHORT("X\t16\t18446744073709551615\n", weir_leave(fresh(), room, 16, 18446744073709551615u));
    SHORT("C\t16\t18446744073709551615\t64\t18446744073709551615\t18446744073709551615\t18446744073709551615\t0\n",
          weir_call(fresh(), room, 16, 18446744073709551615u, 64, 18446744073709551615u, 18446744073709551615u,
                    18446744073709551615u, 0));
    SHORT("C\t16\t18446744073709551615\t19\t0\t0\t0\t-2147483648\n",
          weir_call(fresh(), room, 16, 18446744073709551615u, 19, 0, 0, 0, lowest));
    SHORT("C\t1\t1\t26\t0\t0\t0\t2147483647\n", weir_call(fresh(), room, 1, 1, 26, 0, 0, 0, 2147483647));
    SHORT("R\t16\t218\t-2147483648\t1\n", weir_return(fresh(), room, 16, 218, 0, lowest, 1));
    SHORT("R\t16\t169\t18446744073709551615\t1\n", weir_return(fresh(), room, 16, 169, 18446744073709551615u, 0, 1));
    SHORT("A\t16\t18446744073709551615\n", weir_attach(fresh(), room, 16, 18446744073709551615u));
    SHORT("D\t16\n", weir_detach(fresh(), room, 16));
    SHORT("K\t4095\t1\n", weir_declare(fresh(), room, 4095, 1));
    SHORT("O\t16\t18446744073709551615\t4095\n", weir_state(fresh(), room, 16, 18446744073709551615u, 4095));
    SHORT("M\t18446744073709551612\t2\t4095\t1\t0\n", weir_identify(fresh(), room, 18446744073709551612u, 2, 4095, 1, 0));
    SHORT("Z\n", weir_end(fresh(), room));
    /* a bad event in no room at all is bad, not short */
    refuses(weir_leave(fresh(), 0, 17, 5), WEIR_BAD, "X of thread 17 in no room is bad");
    expect(weir_end(NULL, 0) == WEIR_SHORT, "Z in no buffer is short");
}

/* ---- what the reader takes, and its refusals */

/* Whether a handle is alive, and of which kind, the lines do not ask. */
static void handles_of_every_kind(void)
{
    uint8_t d[WEIR_LINE];
    uint64_t handle;

    for (handle = 0; handle < 8; handle++) {
        expect(checked_state(d, 1, handle, 1) == 8, "the class of any handle is stated");
        expect(checked_state(d, 1, 18446744073709551615u - handle, 1) == 27, "the class of any of the highest handles is stated");
    }
}

/* Numbers that are equal in their lower 32 bits are written and read again whole: 4294967301 is not 5. */
static void equal_in_32_bits(void)
{
    static const uint64_t locals[WEIR_HANDLES] = {5, 4294967301u, 9223372036854775813u, 18446744069414584325u};
    /* in their lower 32 bits these are 0 */
    static const uint64_t zeros[] = {4294967296u, 140097538228224u, 9223372036854775808u, 18446744069414584320u};
    uint8_t d[WEIR_LINE];
    size_t i;

    for (i = 0; i < sizeof zeros / sizeof zeros[0]; i++) {
        checked_enter(d, 1, zeros[i], 4, locals);
        checked_leave(d, 1, zeros[i]);
        checked_call(d, 1, zeros[i], 170, locals[i], zeros[i], 0, 0);
        checked_call(d, 1, zeros[i], 104, locals[i], zeros[i], locals[i], 0);
        checked_return(d, 1, 31, locals[i], 0, 0);
        checked_return(d, 1, 21, zeros[i] + 6, 0, 0);
        checked_return(d, 1, 226, zeros[i] + 7, 0, 0);
        checked_return(d, 1, 33, zeros[i], 0, 0);
        checked_return(d, 1, 169, zeros[i], 0, 0);
        checked_attach(d, 1, zeros[i]);
        checked_state(d, 1, zeros[i], 1);
        checked_identify(d, zeros[i], 2, 1, 0, 1);
    }
}

static void longest_lines(void)
{
    const uint64_t most = 18446744073709551615u;
    uint8_t d[WEIR_LINE];

    expect(checked_enter(d, 16, most, 8, highest) == 194, "the longest N has 194 bytes");
    expect(checked_leave(d, 16, most) == 26, "the longest X has 26 bytes");
    expect(checked_call(d, 16, most, 104, most, most, most, 0) == 95, "the longest C has 95 bytes");
    expect(checked_call(d, 16, most, 26, 0, 0, 0, lowest) == 47, "the longest C with a capacity has 47 bytes");
    expect(checked_return(d, 16, 169, most, 0, 1) == 32, "the longest R has 32 bytes");
    expect(checked_return(d, 16, 218, 0, lowest, 1) == 23, "the longest R with a status has 23 bytes");
    expect(checked_attach(d, 16, most) == 26, "the longest A has 26 bytes");
    expect(checked_detach(d, 16) == 5, "the longest D has 5 bytes");
    expect(checked_declare(d, 4095, 4095) == 12, "the longest K has 12 bytes");
    expect(checked_state(d, 16, most, 4095) == 31, "the longest O has 31 bytes");
    expect(checked_identify(d, most - 3, 2, 4095, 1, 1) == 34, "the longest M has 34 bytes");
    expect(checked_end(d) == 2, "Z has 2 bytes");
}

static void below_zero(void)
{
    static const char capacity[] = "C\t1\t100\t19\t0\t0\t0\t-2147483648\n";
    static const char status[] = "R\t1\t26\t-1\t1\n";
    static const char largest[] = "R\t1\t26\t2147483647\t0\n";
    uint64_t numbers[WEIR_NUMBERS] = {0};
    uint32_t count = 0;

    expect(weir_read((const uint8_t *)capacity, strlen(capacity), numbers, &count) == 'C', "a C with a capacity is read");
    expect(count == 7 && weir_signed(numbers[6]) == lowest, "its capacity is -2147483648");
    expect(numbers[6] == 18446744071562067968u, "it is told as its two's complement in 64 bits");
    expect(weir_read((const uint8_t *)status, strlen(status), numbers, &count) == 'R', "an R with a status is read");
    expect(count == 4 && weir_signed(numbers[2]) == -1, "its status is -1");
    expect(weir_read((const uint8_t *)largest, strlen(largest), numbers, &count) == 'R', "an R with the largest status is read");
    expect(count == 4 && weir_signed(numbers[2]) == 2147483647, "its status is 2147483647");
}

/* The reader returns `number` for these bytes, and leaves numbers and count as they were. */
static void refuses_bytes(const uint8_t *bytes, size_t length, int32_t number, const char *what)
{
    uint64_t untouched[WEIR_NUMBERS];
    uint64_t numbers[WEIR_NUMBERS];
    uint32_t count = FILL;

    memset(untouched, FILL, sizeof untouched);
    memset(numbers, FILL, sizeof numbers);
    expect(weir_read(bytes, length, numbers, &count) == number, what);
    expect(count == FILL && memcmp(numbers, untouched, sizeof numbers) == 0, "nothing is written on a refusal of the reader");
}

static void refuses_line(const char *line, int32_t number)
{
    refuses_bytes((const uint8_t *)line, strlen(line), number, line);
}

static void no_lines(void)
{
    static const char line[] =
        "N\t16\t18446744073709551615\t18446744073709551613\t18446744073709551609\t18446744073709551605\t18446744073709551601"
        "\t18446744073709551597\t18446744073709551593\t18446744073709551589\t18446744073709551585\n";
    uint8_t wide[WEIR_LINE + 1];
    size_t length;

    refuses_bytes(NULL, 0, WEIR_NO_LINE, "no byte at all is no line");
    for (length = 0; length < strlen(line); length++)
        refuses_bytes((const uint8_t *)line, length, WEIR_NO_LINE, "the start of a line is no line");
    refuses_line("Z", WEIR_NO_LINE);
    refuses_line("Z\nZ", WEIR_NO_LINE);
    refuses_line("Z\n\r", WEIR_NO_LINE);
    /* 224 bytes before the LF are read, 225 are no line */
    memset(wide, '9', sizeof wide);
    memcpy(wide, "X\t1\t", 4);
    wide[WEIR_LINE - 1] = '\n';
    refuses_bytes(wide, WEIR_LINE, WEIR_BAD, "X of 224 bytes has a number out of range");
    wide[WEIR_LINE - 1] = '9';
    wide[WEIR_LINE] = '\n';
    refuses_bytes(wide, WEIR_LINE + 1, WEIR_NO_LINE, "225 bytes before the LF are no line");
}

static void wrong_forms(void)
{
    static const char *const lines[] = {
        /* letters */
        "\n", "B\t1\t5\n", "x\t1\t5\n", "a\t1\t5\n", "d\t1\n", "k\t5\t1\n", "o\t1\t5\t3\n", "m\t8\t1\t2\t0\t0\n", "\tX\t1\t5\n", " Z\n",
        "XX\t1\t5\n", "1\t1\t5\n",
        /* fields */
        "N\n", "N\t1\n", "N\t1\t100\t1\t5\t9\t13\t17\t21\t25\t29\t33\n", "X\n", "X\t1\n", "X\t1\t5\t5\n",
        "C\t1\t100\t31\t5\t0\t0\n", "C\t1\t100\t31\t5\t0\t0\t0\t0\n", "R\t1\t31\t13\n", "R\t1\t31\t13\t0\t0\n", "Z\t1\n",
        "A\n", "A\t1\n", "A\t1\t100\t5\n", "D\n", "D\t1\t100\n", "K\t5\n", "K\t5\t1\t1\n", "O\t1\t5\n", "O\t1\t5\t3\t3\n",
        "M\n", "M\t8\t1\t2\t0\n", "M\t8\t1\t2\t0\t0\t0\n",
        "X\t1\t5\t\n", "X\t1\t\t5\n", "X\t1\t\n", "Z\t\n", "X 1 5\n", "X1\t5\n", "X\t1\t5\r\n", "Z\r\n", "Z \n",
        /* numbers */
        "X\t01\t5\n", "X\t1\t00\n", "X\t1\t-0\n", "X\t1\t-01\n", "X\t1\t-\n", "X\t1\t--1\n", "X\t1\t1-\n", "X\t1\t+5\n",
        "X\t1\t 5\n", "X\t1\t5 \n", "X\t1\t5.0\n", "X\t1\t0x5\n", "X\t1\tfive\n",
        "C\t1\t100\t19\t0\t0\t0\t-0\n", "R\t1\t26\t-0\t1\n", "R\t1\t31\t13\t01\n", "K\t05\t1\n", "O\t1\t5\t-0\n",
        "M\t08\t1\t2\t0\t0\n", "M\t8\t1\t2\t0\t-0\n",
        /* an LF inside */
        "Z\nZ\n", "Z\n\n", "\nZ\n", "X\t1\n\t5\n", "X\t1\n5\n", "X\t1\t5\n\n",
        /* a wrong form goes before a number out of range */
        "X\t17\t01\n", "X\t01\t18446744073709551616\n", "R\t17\t233\t13\n", "A\t17\n", "A\t0\t01\n", "D\t17\t0\n",
        "K\t0\t01\n", "O\t17\t5\t\n", "M\t5\t3\t2\t0\t01\n", "N\t17\t0\t0\t0\t0\t0\t0\t0\t0\t0\t0\n"};
    const uint8_t nul[] = {'X', '\t', '1', '\t', '5', 0, '\n'};
    uint8_t letter[] = {0, '\n'};
    size_t i;

    for (i = 0; i < sizeof lines / sizeof lines[0]; i++)
        refuses_line(lines[i], WEIR_FORM);
    refuses_bytes(nul, sizeof nul, WEIR_FORM, "a NUL is no part of a number");
    for (i = 0; i < 256; i++)
        if (i != 'Z') {
            letter[0] = (uint8_t)i;
            refuses_bytes(letter, sizeof letter, WEIR_FORM, "a line of one letter is Z's");
        }
}

static void bad_numbers(void)
{
    static const char *const lines[] = {
        "N\t0\t100\n", "N\t17\t100\n", "N\t-1\t100\n", "N\t1\t0\n", "N\t1\t-1\n", "N\t1\t18446744073709551616\n",
        "N\t1\t18446744073709551716\n", "N\t1\t123456789012345678901234567890\n", "N\t1\t100\t0\n", "N\t1\t100\t5\t6\n",
        "N\t1\t100\t4\n", "N\t1\t100\t18446744073709551614\n", "N\t1\t100\t18446744073709551617\n", "N\t1\t100\t-3\n",
        "N\t1\t100\t1\t5\t9\t13\t17\t21\t25\t30\n",
        "X\t0\t5\n", "X\t17\t5\n", "X\t4294967297\t5\n", "X\t18446744073709551617\t5\n", "X\t1\t-1\n",
        "X\t1\t18446744073709551616\n", "X\t1\t18446744073709551621\n", "X\t1\t99999999999999999999\n",
        "X\t1\t123456789012345678901234567890\n", "X\t123456789012345678901234567890\t5\n",
        "X\t1\t-123456789012345678901234567890\n", "X\t1\t-18446744073709551611\n",
        "C\t17\t100\t6\t0\t0\t0\t0\n", "C\t1\t0\t6\t0\t0\t0\t0\n", "C\t1\t18446744073709551616\t6\t0\t0\t0\t0\n",
        "C\t1\t100\t3\t0\t0\t0\t0\n", "C\t1\t100\t233\t0\t0\t0\t0\n", "C\t1\t100\t-6\t0\t0\t0\t0\n",
        "C\t1\t100\t4294967302\t0\t0\t0\t0\n", "C\t1\t100\t31\t-1\t0\t0\t0\n", "C\t1\t100\t31\t18446744073709551616\t0\t0\t0\n",
        "C\t1\t100\t104\t5\t18446744073709551616\t5\t0\n", "C\t1\t100\t104\t5\t8\t123456789012345678901234567890\t0\n",
        "C\t1\t100\t31\t5\t9\t0\t0\n", "C\t1\t100\t31\t5\t0\t9\t0\n", "C\t1\t100\t31\t5\t4294967296\t0\t0\n",
        "C\t1\t100\t31\t5\t0\t0\t1\n", "C\t1\t100\t31\t5\t0\t0\t-1\n", "C\t1\t100\t31\t5\t0\t0\t4294967296\n",
        "C\t1\t100\t19\t0\t0\t0\t2147483648\n", "C\t1\t100\t19\t0\t0\t0\t4294967304\n",
        "C\t1\t100\t26\t0\t0\t0\t-2147483649\n", "C\t1\t100\t26\t0\t0\t0\t18446744073709551615\n",
        "C\t1\t100\t19\t0\t0\t0\t123456789012345678901234567890\n",
        "R\t17\t31\t13\t0\n", "R\t1\t3\t0\t0\n", "R\t1\t233\t0\t0\n", "R\t1\t31\t14\t0\n", "R\t1\t31\t-1\t0\n",
        "R\t1\t21\t13\t0\n", "R\t1\t226\t14\t0\n", "R\t1\t33\t13\t0\n", "R\t1\t22\t14\t0\n", "R\t1\t22\t4294967296\t0\n",
        "R\t1\t31\t18446744073709551614\t0\n", "R\t1\t31\t18446744073709551617\t0\n",
        "R\t1\t169\t18446744073709551616\t0\n", "R\t1\t169\t-1\t0\n", "R\t1\t19\t2147483648\t0\n", "R\t1\t19\t4294967296\t0\n",
        "R\t1\t218\t-2147483649\t0\n", "R\t1\t26\t18446744073709551615\t1\n", "R\t1\t31\t13\t2\n", "R\t1\t31\t13\t-1\n",
        "R\t1\t31\t13\t4294967297\n",
        "A\t0\t100\n", "A\t17\t100\n", "A\t-1\t100\n", "A\t4294967297\t100\n", "A\t1\t0\n", "A\t1\t-1\n",
        "A\t1\t18446744073709551616\n", "A\t1\t18446744073709551716\n", "A\t1\t123456789012345678901234567890\n",
        "D\t0\n", "D\t17\n", "D\t-1\n", "D\t4294967297\n", "D\t123456789012345678901234567890\n",
        "K\t0\t1\n", "K\t4096\t1\n", "K\t-5\t1\n", "K\t4294967301\t1\n", "K\t18446744073709551621\t1\n", "K\t5\t0\n",
        "K\t5\t4096\n", "K\t5\t-1\n",
        "O\t0\t5\t3\n", "O\t17\t5\t3\n", "O\t-1\t5\t3\n", "O\t4294967297\t5\t3\n", "O\t1\t18446744073709551616\t3\n",
        "O\t1\t-5\t3\n", "O\t1\t5\t0\n", "O\t1\t5\t4096\n", "O\t1\t5\t4294967299\n", "O\t1\t5\t-3\n",
        "M\t0\t1\t2\t0\t0\n", "M\t5\t1\t2\t0\t0\n", "M\t6\t1\t2\t0\t0\n", "M\t7\t1\t2\t0\t0\n", "M\t-8\t1\t2\t0\t0\n",
        "M\t18446744073709551613\t1\t2\t0\t0\n", "M\t18446744073709551616\t1\t2\t0\t0\n", "M\t8\t0\t2\t0\t0\n",
        "M\t8\t3\t2\t0\t0\n", "M\t8\t4294967297\t2\t0\t0\n", "M\t8\t1\t0\t0\t0\n", "M\t8\t1\t4096\t0\t0\n",
        "M\t8\t1\t2\t2\t0\n", "M\t8\t1\t2\t-1\t0\n", "M\t8\t1\t2\t0\t2\n", "M\t8\t1\t2\t0\t4294967296\n"};
    size_t i;

    for (i = 0; i < sizeof lines / sizeof lines[0]; i++)
        refuses_line(lines[i], WEIR_BAD);
}

int main(void)
{
    trace();
    bad_events();
    short_buffers();
    handles_of_every_kind();
    equal_in_32_bits();
    longest_lines();
    below_zero();
    no_lines();
    wrong_forms();
    bad_numbers();
    expect(fflush(stdout) == 0, "the trace is printed");
    return failures != 0;
}
