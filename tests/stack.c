/* Measures the stack that each function of weir.h takes, and holds it to a bound.
 *
 * The functions are called on a thread whose stack is a buffer of this program. Before each call all of the buffer below the
 * caller's stack pointer is painted, and after it the buffer is looked through from its low end: the first byte that is not
 * paint is the deepest that the call touched. So a figure is in bytes below the caller's stack pointer, and has in it the
 * arguments that go by the stack and the return address. Each call is made over two paints in turn: a byte that a function
 * writes with one of them differs from the other.
 *
 * Standard output is a table: function, deepest byte, bound, how many inputs were tried, and the first of them that went so
 * deep. What went wrong is said on standard error, and the exit status is then 1.
 */
#ifndef __x86_64__
#error "the libraries are for x86-64"
#endif

#define _POSIX_C_SOURCE 200809L

#include <inttypes.h>
#include <limits.h>
#include <pthread.h>
#include <stdint.h>
#include <stdio.h>
#include <string.h>

#include "weir.h"

enum {
    ENTER, LEAVE, CALL, RETURN, ATTACH, DETACH, DECLARE, STATE, IDENTIFY, END, READ, FUNCTIONS,
    PROBE = FUNCTIONS, PROBE_OF_NINE, CALLEES
};

/* The bounds: the deepest byte, rounded up to a multiple of 16, and 16 more. */
static const struct {
    const char *name;
    size_t bound;
} functions[FUNCTIONS] = {
    {"weir_enter", 272}, {"weir_leave", 336}, {"weir_call", 384}, {"weir_return", 384}, {"weir_attach", 336},
    {"weir_detach", 336}, {"weir_declare", 336}, {"weir_state", 352}, {"weir_identify", 368}, {"weir_end", 336},
    {"weir_read", 272},
};

/* ---- what went wrong, said once the threads have ended */

static const char *wrongs[32];
static size_t wrong_count = 0;

#define COUNT(array) (sizeof(array) / sizeof(array)[0])

static void expect(int holds, const char *what)
{
    size_t i;

    if (holds)
        return;
    for (i = 0; i < wrong_count && wrongs[i] != what; i++)
        ;
    if (i == wrong_count && i < COUNT(wrongs))
        wrongs[wrong_count++] = what;
}

/* ---- one call, measured */

static uint64_t stack[(PTHREAD_STACK_MIN + 8192) / sizeof(uint64_t)] __attribute__((aligned(64)));

static const uint8_t paints[] = {0x5a, 0xa5};

/* The paint, eight times. It is read anew after a call: were it in a register meanwhile, a function that saves its caller's
 * registers would leave paint on the stack. */
static volatile uint64_t paint;

/* Functions that touch one byte, 1000 below the return address, with one of the paints, and keep the six registers that a
 * function saves. The second has three arguments on the stack, where a call is aligned to 16. */
int32_t weir_probe(void);
int32_t weir_probe_of_nine(int, int, int, int, int, int, int, int, int);
uint8_t weir_registers[6 * 8];
__asm__(".pushsection .text\n"
        "weir_probe_of_nine:\n"
        "    movb $0xa5, -1000(%rsp)\n"
        "    jmp 1f\n"
        "weir_probe:\n"
        "    movb $0x5a, -1000(%rsp)\n"
        "1:  mov %rbx, weir_registers(%rip)\n"
        "    mov %rbp, weir_registers+8(%rip)\n"
        "    mov %r12, weir_registers+16(%rip)\n"
        "    mov %r13, weir_registers+24(%rip)\n"
        "    mov %r14, weir_registers+32(%rip)\n"
        "    mov %r15, weir_registers+40(%rip)\n"
        "    ret\n"
        ".popsection\n");
#define RETURN_ADDRESS 8
#define PROBED (1000 + RETURN_ADDRESS)
#define PROBED_OF_NINE (PROBED + 32)

/* What is called, and with what. */
static struct input {
    int callee;
    size_t length; /* of the line, or of the buffer */
    uint8_t line[256];
    uint32_t thread, count, function, pending, class_number, super_number, sort, is_static, is_final;
    uint64_t env, a, b, c, result, handle, identity;
    int32_t n, status;
    uint64_t handles[WEIR_HANDLES];
} now;

static int32_t reply;

static uint8_t buffer[WEIR_LINE];
static uint64_t numbers[WEIR_NUMBERS];
static uint32_t number_count;

/* The functions, called by pointers that the compiler cannot see through. */
static volatile struct {
    int32_t (*enter)(uint8_t *, size_t, uint32_t, uint64_t, uint32_t, const uint64_t *);
    int32_t (*leave)(uint8_t *, size_t, uint32_t, uint64_t);
    int32_t (*call)(uint8_t *, size_t, uint32_t, uint64_t, uint32_t, uint64_t, uint64_t, uint64_t, int32_t);
    int32_t (*give)(uint8_t *, size_t, uint32_t, uint32_t, uint64_t, int32_t, uint32_t);
    int32_t (*attach)(uint8_t *, size_t, uint32_t, uint64_t);
    int32_t (*detach)(uint8_t *, size_t, uint32_t);
    int32_t (*declare)(uint8_t *, size_t, uint32_t, uint32_t);
    int32_t (*state)(uint8_t *, size_t, uint32_t, uint64_t, uint32_t);
    int32_t (*identify)(uint8_t *, size_t, uint64_t, uint32_t, uint32_t, uint32_t, uint32_t);
    int32_t (*end)(uint8_t *, size_t);
    int32_t (*read)(const uint8_t *, size_t, uint64_t *, uint32_t *);
    int32_t (*probe)(void);
    int32_t (*probe_of_nine)(int, int, int, int, int, int, int, int, int);
} weir = {weir_enter, weir_leave, weir_call, weir_return, weir_attach, weir_detach, weir_declare, weir_state,
          weir_identify, weir_end, weir_read, weir_probe, weir_probe_of_nine};

/* The deepest byte that the call of `now` leaves unlike the paint. Nothing else is called from here. */
__attribute__((noinline)) static size_t depth(void)
{
    uint8_t *const d = now.length == 0 ? NULL : buffer;
    const uint8_t *const line = now.length == 0 ? NULL : now.line;
    uint64_t word = paint;
    volatile uint64_t *p;
    volatile uint8_t *byte;
    uintptr_t top;

    __asm__ volatile("mov %%rsp, %0" : "=r"(top) : : "memory");
    for (p = stack; (uintptr_t)p < top; p++)
        *p = word;
    switch (now.callee) {
    case ENTER: reply = weir.enter(d, now.length, now.thread, now.env, now.count, now.handles); break;
    case LEAVE: reply = weir.leave(d, now.length, now.thread, now.result); break;
    case CALL: reply = weir.call(d, now.length, now.thread, now.env, now.function, now.a, now.b, now.c, now.n); break;
    case RETURN: reply = weir.give(d, now.length, now.thread, now.function, now.result, now.status, now.pending); break;
    case ATTACH: reply = weir.attach(d, now.length, now.thread, now.env); break;
    case DETACH: reply = weir.detach(d, now.length, now.thread); break;
    case DECLARE: reply = weir.declare(d, now.length, now.class_number, now.super_number); break;
    case STATE: reply = weir.state(d, now.length, now.thread, now.handle, now.class_number); break;
    case IDENTIFY:
        reply = weir.identify(d, now.length, now.identity, now.sort, now.class_number, now.is_static, now.is_final);
        break;
    case END: reply = weir.end(d, now.length); break;
    case READ: reply = weir.read(line, now.length, numbers, &number_count); break;
    case PROBE: reply = weir.probe(); break;
    case PROBE_OF_NINE: reply = weir.probe_of_nine(1, 2, 3, 4, 5, 6, 7, 8, 9); break;
    }
    word = paint;
    for (p = stack; (uintptr_t)p < top && *p == word; p++)
        ;
    for (byte = (volatile uint8_t *)p; (uintptr_t)byte < top && *byte == (uint8_t)word; byte++)
        ;
    return top - (uintptr_t)byte;
}

/* What was found of each function. */
static struct record {
    size_t deepest;
    unsigned long inputs;
    struct input input;
} found[CALLEES];

/* Measures the call of `now` and returns what it returned. */
static int32_t measure(void)
{
    struct record *const record = &found[now.callee];
    size_t i;

    record->inputs++;
    for (i = 0; i < COUNT(paints); i++) {
        size_t deepest;

        paint = paints[i] * UINT64_C(0x0101010101010101);
        deepest = depth();
        if (deepest > record->deepest) {
            record->deepest = deepest;
            record->input = now;
        }
    }
    return reply;
}

/* The probes are measured, and no register that they kept had the paint, under each paint, in the same byte. */
static void probes(void)
{
    uint8_t painted[sizeof weir_registers];
    size_t i, k;

    for (now.callee = PROBE; now.callee <= PROBE_OF_NINE; now.callee++) {
        measure();
        memset(painted, 0, sizeof painted);
        for (i = 0; i < COUNT(paints); i++) {
            paint = paints[i] * UINT64_C(0x0101010101010101);
            depth();
            for (k = 0; k < sizeof painted; k++)
                painted[k] += weir_registers[k] == paints[i];
        }
        for (k = 0; k < sizeof painted; k++)
            expect(painted[k] < COUNT(paints), "no register has the paint during a call");
    }
    expect(found[PROBE].deepest == PROBED, "a probe is measured to the byte");
    expect(found[PROBE_OF_NINE].deepest == PROBED_OF_NINE, "a probe with arguments on the stack is measured to the byte");
}

/* ---- inputs of the writers */

#define HIGHEST 18446744073709551615u
#define LOWEST (-2147483647 - 1)

static const uint32_t bad_threads[] = {0, 17, 4294967295u};
static const uint32_t bad_classes[] = {0, 4096, 4294967295u};
static const uint32_t bad_flags[] = {2, 256, 4294967295u};
static const uint64_t bad_identities[] = {0, 1, 2, 3, 18446744073709551613u, HIGHEST};
static const int32_t signs[] = {0, LOWEST, 2147483647};
/* the highest of each kind, and null */
static const uint64_t results[] = {0, 18446744073709551613u, 18446744073709551614u, HIGHEST, 18446744073709551612u};
static const uint64_t highest[WEIR_HANDLES] = {18446744073709551613u, 18446744073709551609u, 18446744073709551605u,
                                               18446744073709551601u, 18446744073709551597u, 18446744073709551593u,
                                               18446744073709551589u, 18446744073709551585u};

static int32_t measure_enter(size_t length, uint32_t thread, uint64_t env, uint32_t count,
                             const uint64_t handles[WEIR_HANDLES])
{
    now.callee = ENTER;
    now.length = length;
    now.thread = thread;
    now.env = env;
    now.count = count;
    memcpy(now.handles, handles, sizeof now.handles);
    return measure();
}

static int32_t measure_leave(size_t length, uint32_t thread, uint64_t result)
{
    now.callee = LEAVE;
    now.length = length;
    now.thread = thread;
    now.result = result;
    return measure();
}

static int32_t measure_call(size_t length, uint32_t thread, uint64_t env, uint32_t function, uint64_t a, uint64_t b, uint64_t c,
                            int32_t n)
{
    now.callee = CALL;
    now.length = length;
    now.thread = thread;
    now.env = env;
    now.function = function;
    now.a = a;
    now.b = b;
    now.c = c;
    now.n = n;
    return measure();
}

static int32_t measure_return(size_t length, uint32_t thread, uint32_t function, uint64_t result, int32_t status,
                              uint32_t pending)
{
    now.callee = RETURN;
    now.length = length;
    now.thread = thread;
    now.function = function;
    now.result = result;
    now.status = status;
    now.pending = pending;
    return measure();
}

static int32_t measure_attach(size_t length, uint32_t thread, uint64_t env)
{
    now.callee = ATTACH;
    now.length = length;
    now.thread = thread;
    now.env = env;
    return measure();
}

static int32_t measure_detach(size_t length, uint32_t thread)
{
    now.callee = DETACH;
    now.length = length;
    now.thread = thread;
    return measure();
}

static int32_t measure_declare(size_t length, uint32_t class_number, uint32_t super_number)
{
    now.callee = DECLARE;
    now.length = length;
    now.class_number = class_number;
    now.super_number = super_number;
    return measure();
}

static int32_t measure_state(size_t length, uint32_t thread, uint64_t handle, uint32_t class_number)
{
    now.callee = STATE;
    now.length = length;
    now.thread = thread;
    now.handle = handle;
    now.class_number = class_number;
    return measure();
}

static int32_t measure_identify(size_t length, uint64_t identity, uint32_t sort, uint32_t class_number, uint32_t is_static,
                                uint32_t is_final)
{
    now.callee = IDENTIFY;
    now.length = length;
    now.identity = identity;
    now.sort = sort;
    now.class_number = class_number;
    now.is_static = is_static;
    now.is_final = is_final;
    return measure();
}

static int32_t measure_end(size_t length)
{
    now.callee = END;
    now.length = length;
    return measure();
}

/* buffers of every length, and numbers of every length */
static void inputs_of_every_length(void)
{
    uint64_t handles[WEIR_HANDLES];
    uint32_t count;
    uint64_t x;
    size_t length;
    size_t i;

    for (length = 0; length <= WEIR_LINE; length++) {
        for (count = 0; count <= WEIR_HANDLES; count++) {
            memset(handles, 0, sizeof handles);
            memcpy(handles, highest, count * sizeof handles[0]);
            expect((measure_enter(length, 16, HIGHEST, count, handles) > 0) == (length >= 26 + 21 * count),
                   "an N with the highest numbers is written where it has room");
        }
        expect((measure_leave(length, 16, HIGHEST) > 0) == (length >= 26), "the longest X is written where it has room");
        expect((measure_call(length, 16, HIGHEST, 104, HIGHEST, HIGHEST, HIGHEST, 0) > 0) == (length >= 95),
               "the longest C is written where it has room");
        expect((measure_call(length, 16, HIGHEST, 26, 0, 0, 0, LOWEST) > 0) == (length >= 47),
               "C with the lowest capacity is written where it has room");
        expect((measure_return(length, 16, 169, HIGHEST, 0, 1) > 0) == (length >= 32),
               "R with the highest buffer is written where it has room");
        expect((measure_return(length, 16, 218, 0, LOWEST, 1) > 0) == (length >= 23),
               "R with the lowest status is written where it has room");
        expect((measure_attach(length, 16, HIGHEST) > 0) == (length >= 26), "the longest A is written where it has room");
        expect((measure_detach(length, 16) > 0) == (length >= 5), "the longest D is written where it has room");
        expect((measure_declare(length, 4095, 4095) > 0) == (length >= 12), "the longest K is written where it has room");
        expect((measure_state(length, 16, HIGHEST, 4095) > 0) == (length >= 31), "the longest O is written where it has room");
        expect((measure_identify(length, HIGHEST - 3, 2, 4095, 1, 1) > 0) == (length >= 34),
               "the longest M is written where it has room");
        expect((measure_end(length) > 0) == (length >= 2), "Z is written where it has room");
    }
    memset(handles, 0, sizeof handles);
    for (i = 0, x = 1; i < 20; i++, x *= 10) {
        measure_leave(WEIR_LINE, 1, x - 1);
        measure_leave(WEIR_LINE, 1, x);
        measure_enter(WEIR_LINE, 1, x, 0, handles);
        measure_call(WEIR_LINE, 1, x, 104, x, x, x, 0);
        measure_return(WEIR_LINE, 1, 169, x, 0, 0);
        measure_attach(WEIR_LINE, 1, x);
        measure_state(WEIR_LINE, 1, x, 1);
        measure_identify(WEIR_LINE, 4 * x, 1, 1, 0, 0);
    }
    for (i = 0, x = 1; i < 10; i++, x *= 10) {
        measure_call(WEIR_LINE, 1, x, 19, 0, 0, 0, (int32_t)x);
        measure_call(WEIR_LINE, 1, x, 19, 0, 0, 0, -(int32_t)x);
        measure_return(WEIR_LINE, 1, 217, 0, (int32_t)x, 0);
        measure_return(WEIR_LINE, 1, 217, 0, -(int32_t)x, 0);
        measure_declare(WEIR_LINE, (uint32_t)x, 1);
        measure_declare(WEIR_LINE, 1, (uint32_t)x);
        measure_state(WEIR_LINE, 1, 0, (uint32_t)x);
        measure_identify(WEIR_LINE, 4, 1, (uint32_t)x, 0, 0);
    }
}

static void bad_inputs(size_t length)
{
    uint64_t handles[WEIR_HANDLES];
    uint32_t count;
    size_t i;

    for (i = 0; i < COUNT(bad_threads); i++) {
        expect(measure_enter(length, bad_threads[i], HIGHEST, 8, highest) == WEIR_BAD, "N of a bad thread is bad");
        expect(measure_leave(length, bad_threads[i], HIGHEST) == WEIR_BAD, "X of a bad thread is bad");
        expect(measure_call(length, bad_threads[i], HIGHEST, 6, 0, 0, 0, 0) == WEIR_BAD, "C of a bad thread is bad");
        expect(measure_return(length, bad_threads[i], 6, 0, 0, 0) == WEIR_BAD, "R of a bad thread is bad");
        expect(measure_attach(length, bad_threads[i], HIGHEST) == WEIR_BAD, "A of a bad thread is bad");
        expect(measure_detach(length, bad_threads[i]) == WEIR_BAD, "D of a bad thread is bad");
        expect(measure_state(length, bad_threads[i], HIGHEST, 4095) == WEIR_BAD, "O of a bad thread is bad");
    }
    for (i = 0; i < COUNT(bad_classes); i++) {
        expect(measure_declare(length, bad_classes[i], 1) == WEIR_BAD, "K of a bad class is bad");
        expect(measure_declare(length, 4095, bad_classes[i]) == WEIR_BAD, "K under a bad class is bad");
        expect(measure_state(length, 16, HIGHEST, bad_classes[i]) == WEIR_BAD, "O of a bad class is bad");
        expect(measure_identify(length, HIGHEST - 3, 2, bad_classes[i], 1, 1) == WEIR_BAD, "M of a bad class is bad");
    }
    for (i = 0; i < COUNT(bad_flags); i++) {
        expect(measure_identify(length, HIGHEST - 3, bad_flags[i] + 1, 4095, 1, 1) == WEIR_BAD, "M of a bad sort is bad");
        expect(measure_identify(length, HIGHEST - 3, 2, 4095, bad_flags[i], 1) == WEIR_BAD, "M with a bad static is bad");
        expect(measure_identify(length, HIGHEST - 3, 2, 4095, 1, bad_flags[i]) == WEIR_BAD, "M with a bad final is bad");
    }
    for (i = 0; i < COUNT(bad_identities); i++)
        expect(measure_identify(length, bad_identities[i], 2, 4095, 1, 1) == WEIR_BAD, "M of a bad identity is bad");
    expect(measure_enter(length, 16, 0, 8, highest) == WEIR_BAD, "N of env 0 is bad");
    expect(measure_call(length, 16, 0, 6, 0, 0, 0, 0) == WEIR_BAD, "C of env 0 is bad");
    expect(measure_attach(length, 16, 0) == WEIR_BAD, "A of env 0 is bad");
    expect(measure_enter(length, 16, HIGHEST, 9, highest) == WEIR_BAD, "N of nine handles is bad");
    expect(measure_enter(length, 16, HIGHEST, 4294967295u, highest) == WEIR_BAD, "N of the most handles is bad");
    for (count = 0; count < WEIR_HANDLES; count++)
        expect(measure_enter(length, 16, HIGHEST, count, highest) == WEIR_BAD, "N with a slot past its count is bad");
    for (i = 0; i < WEIR_HANDLES; i++) {
        memcpy(handles, highest, sizeof handles);
        handles[i] = 0;
        expect(measure_enter(length, 16, HIGHEST, 8, handles) == WEIR_BAD, "N with a null handle is bad");
        handles[i] = 18446744073709551614u;
        expect(measure_enter(length, 16, HIGHEST, 8, handles) == WEIR_BAD, "N with a global handle is bad");
    }
}

/* every function, with numbers of which its row takes some */
static void inputs_of_every_function(void)
{
    uint32_t calls = 0;
    uint32_t returns = 0;
    uint32_t function, places, pending;
    size_t i;

    for (function = 0; function <= 300; function++) {
        int is_call = 0;
        int is_return = 0;

        for (places = 0; places < 8; places++)
            for (i = 0; i < COUNT(signs); i++)
                is_call |= measure_call(WEIR_LINE, 16, HIGHEST, function, places & 1 ? HIGHEST : 0, places & 2 ? HIGHEST : 0,
                                        places & 4 ? HIGHEST : 0, signs[i]) > 0;
        for (pending = 0; pending <= 2; pending++) {
            for (i = 0; i < COUNT(results); i++)
                is_return |= measure_return(WEIR_LINE, 16, function, results[i], 0, pending) > 0;
            for (i = 0; i < COUNT(signs); i++)
                is_return |= measure_return(WEIR_LINE, 16, function, 0, signs[i], pending) > 0;
            measure_return(WEIR_LINE, 16, function, HIGHEST, LOWEST, pending);
        }
        calls += is_call;
        returns += is_return;
    }
    expect(calls == 229 && returns == 229, "the writers have 229 functions");
}

/* ---- inputs of the reader */

static const char *const letters[] = {"N", "X", "C", "R", "A", "D", "K", "O", "M", "Z"};

/* each kind of line at its longest */
static const char *const longest[] = {
    "N\t16\t18446744073709551615\t18446744073709551613\t18446744073709551609\t18446744073709551605\t18446744073709551601"
    "\t18446744073709551597\t18446744073709551593\t18446744073709551589\t18446744073709551585\n",
    "X\t16\t18446744073709551615\n",
    "C\t16\t18446744073709551615\t104\t18446744073709551615\t18446744073709551615\t18446744073709551615\t0\n",
    "C\t16\t18446744073709551615\t26\t0\t0\t0\t-2147483648\n",
    "C\t16\t18446744073709551615\t26\t0\t0\t0\t2147483647\n",
    "R\t16\t169\t18446744073709551615\t1\n",
    "R\t16\t218\t-2147483648\t1\n",
    "R\t16\t218\t2147483647\t1\n",
    "A\t16\t18446744073709551615\n",
    "D\t16\n",
    "K\t4095\t4095\n",
    "O\t16\t18446744073709551615\t4095\n",
    "M\t18446744073709551612\t2\t4095\t1\t1\n",
    "Z\n"};

static void start(void)
{
    now.callee = READ;
    now.length = 0;
}

static void put(char byte)
{
    now.line[now.length++] = (uint8_t)byte;
}

static void put_text(const char *text)
{
    while (*text != '\0')
        put(*text++);
}

static void put_number(uint64_t x)
{
    char digits[20];
    size_t n = 0;

    do {
        digits[n++] = (char)('0' + x % 10);
        x /= 10;
    } while (x != 0);
    while (n > 0)
        put(digits[--n]);
}

static void put_signed(int32_t x)
{
    if (x < 0)
        put('-');
    put_number(x < 0 ? -(uint64_t)x : (uint64_t)x);
}

/* `pattern` again and again, up to `length` bytes of the line */
static void put_up_to(size_t length, const char *pattern)
{
    size_t i;

    for (i = 0; now.length < length; i = pattern[i + 1] == '\0' ? 0 : i + 1)
        put(pattern[i]);
}

/* Measures the line, whose LF is put here. */
static int32_t measure_line(void)
{
    put('\n');
    return measure();
}

/* each longest line, its starts with an LF and without, and each of its bytes turned into another */
static void longest_and_like_them(void)
{
    static const char others[] = {'\n', '\t', '-', '0', '9', ' ', 'N', '\0', '\r', '\x7f', '\xff'};
    size_t i, length, at, k;

    for (i = 0; i < COUNT(longest); i++) {
        const size_t whole = strlen(longest[i]);

        start();
        put_text(longest[i]);
        expect(measure() > 0, "each longest line is read");
        for (length = 0; length < whole; length++) {
            start();
            memcpy(now.line, longest[i], length);
            now.length = length;
            expect(measure() == WEIR_NO_LINE, "the start of a line is no line");
            measure_line();
        }
        for (at = 0; at < whole; at++)
            for (k = 0; k < sizeof others; k++) {
                start();
                put_text(longest[i]);
                now.line[at] = (uint8_t)others[k];
                measure();
            }
    }
}

/* lines of one byte or of a short pattern, alone and after each letter and a tab: the byte to the most, the pattern to every
 * length up to two over the most */
static void fillings(void)
{
    static const char *const starts[] = {"", "N\t", "X\t", "C\t", "R\t", "A\t", "D\t", "K\t", "O\t", "M\t", "Z\t"};
    static const char *const patterns[] = {"\t", "-", "0", "9", "1234567890", "\t0", "\t9", "\t-", "\t-1", "\t18446744073709551615"};
    size_t i, k, length;
    int byte;

    for (k = 0; k < COUNT(starts); k++) {
        for (byte = 0; byte < 256; byte++) {
            start();
            put_text(starts[k]);
            while (now.length < WEIR_LINE - 1)
                put((char)byte);
            measure_line();
        }
        for (i = 0; i < COUNT(patterns); i++)
            for (length = 0; length < WEIR_LINE + 2; length++) {
                start();
                put_text(starts[k]);
                put_up_to(length, patterns[i]);
                if (length >= WEIR_LINE - 2)
                    expect(measure() == WEIR_NO_LINE, "a line without an LF is no line");
                measure_line();
            }
    }
}

/* every field of every kind of line turned into another */
static void fields(void)
{
    static const char *const kinds[][WEIR_NUMBERS + 1] = {
        {"N", "16", "18446744073709551615"},
        {"N", "16", "18446744073709551615", "1", "5", "9", "13", "17", "21", "25", "29"},
        {"X", "16", "18446744073709551615"},
        {"C", "16", "18446744073709551615", "104", "5", "8", "9", "0"},
        {"C", "16", "18446744073709551615", "26", "0", "0", "0", "-5"},
        {"R", "16", "31", "13", "0"},
        {"R", "16", "26", "-1", "1"},
        {"A", "16", "18446744073709551615"},
        {"D", "16"},
        {"K", "4095", "4095"},
        {"O", "16", "18446744073709551615", "4095"},
        {"M", "18446744073709551612", "2", "4095", "1", "1"},
        {"Z"}};
    static const char *const others[] = {
        /* thirty digits */
        "999999999999999999999999999999", "-999999999999999999999999999999", "100000000000000000000000000000",
        /* numbers in range here and out of it there */
        "-1", "0", "1", "2", "3", "4", "5", "17", "233", "4095", "4096", "4294967295", "4294967296", "2147483648", "-2147483648",
        "-2147483649", "9223372036854775808", "-9223372036854775808", "18446744073709551615", "18446744073709551616",
        "18446744073709551617", "99999999999999999999", "-99999999999999999999",
        /* no numbers */
        "-0", "00", "01", "-01", "-", "--1", "+1", "", "x", " 1", "1 ", "\n", "1\n", "\t", "1\t1"};
    size_t i, k, at, field;

    for (i = 0; i < COUNT(kinds); i++)
        for (at = 0; at <= WEIR_NUMBERS && kinds[i][at] != NULL; at++)
            for (k = 0; k < COUNT(others); k++) {
                start();
                for (field = 0; field <= WEIR_NUMBERS && kinds[i][field] != NULL; field++) {
                    if (field > 0)
                        put('\t');
                    put_text(field == at ? others[k] : kinds[i][field]);
                }
                measure_line();
            }
}

/* as many fields as there is room for, up to 112 numbers, so nine handles and more, and one field over the room */
static void counts_of_fields(void)
{
    static const char *const values[] = {"1", "9", "18446744073709551613", "-1", "999999999999999999999999999999"};
    size_t k, i, count, n;

    for (k = 0; k < COUNT(letters); k++)
        for (i = 0; i < COUNT(values); i++)
            for (count = 0; count <= 112 && 1 + count * (1 + strlen(values[i])) <= WEIR_LINE + 1; count++) {
                start();
                put_text(letters[k]);
                for (n = 0; n < count; n++) {
                    put('\t');
                    put_text(values[i]);
                }
                measure_line();
            }
}

static int32_t measure_call_line(uint64_t function, uint64_t a, uint64_t b, uint64_t c, int32_t n)
{
    const uint64_t values[] = {16, HIGHEST, function, a, b, c};
    size_t i;

    start();
    put('C');
    for (i = 0; i < COUNT(values); i++) {
        put('\t');
        put_number(values[i]);
    }
    put('\t');
    put_signed(n);
    return measure_line();
}

/* the result, or a status that is not 0 */
static int32_t measure_return_line(uint64_t function, uint64_t result, int32_t status, uint64_t pending)
{
    start();
    put_text("R\t16\t");
    put_number(function);
    put('\t');
    if (status != 0)
        put_signed(status);
    else
        put_number(result);
    put('\t');
    put_number(pending);
    return measure_line();
}

static void lines_of_every_function(void)
{
    uint32_t calls = 0;
    uint32_t returns = 0;
    uint64_t function, pending;
    unsigned places;
    size_t i;

    for (function = 0; function <= 300; function++) {
        int is_call = 0;
        int is_return = 0;

        for (places = 0; places < 8; places++)
            for (i = 0; i < COUNT(signs); i++)
                is_call |= measure_call_line(function, places & 1 ? HIGHEST : 0, places & 2 ? HIGHEST : 0,
                                             places & 4 ? HIGHEST : 0, signs[i]) > 0;
        for (pending = 0; pending <= 2; pending++) {
            for (i = 0; i < COUNT(results); i++)
                is_return |= measure_return_line(function, results[i], 0, pending) > 0;
            for (i = 0; i < COUNT(signs); i++)
                is_return |= measure_return_line(function, 0, signs[i], pending) > 0;
        }
        calls += is_call;
        returns += is_return;
    }
    expect(calls == 229 && returns == 229, "the reader has 229 functions");
}

/* ---- all of it */

static void *all(void *unused)
{
    if ((uintptr_t)&unused - (uintptr_t)stack >= sizeof stack) {
        expect(0, "the thread runs on the buffer");
        return NULL;
    }
    probes();
    inputs_of_every_length();
    bad_inputs(WEIR_LINE);
    bad_inputs(0);
    inputs_of_every_function();
    longest_and_like_them();
    fillings();
    fields();
    counts_of_fields();
    lines_of_every_function();
    return NULL;
}

/* All inputs, on a thread whose stack is the buffer. */
static int on_the_stack(void)
{
    pthread_attr_t attributes;
    pthread_t thread;

    return pthread_attr_init(&attributes) == 0 && pthread_attr_setstack(&attributes, stack, sizeof stack) == 0
           && pthread_create(&thread, &attributes, all, NULL) == 0 && pthread_join(thread, NULL) == 0;
}

static void print_line(const uint8_t *line, size_t length)
{
    size_t i, same;

    for (i = 0; i < length; i += same) {
        for (same = 1; i + same < length && line[i + same] == line[i]; same++)
            ;
        if (line[i] == '\t')
            printf("\\t");
        else if (line[i] == '\n')
            printf("\\n");
        else if (line[i] < 0x20 || line[i] > 0x7e)
            printf("\\x%02x", line[i]);
        else
            putchar(line[i]);
        if (same > 4)
            printf("{%lu}", (unsigned long)same);
        else
            same = 1;
    }
}

static void print_input(const struct input *input)
{
    size_t i;

    if (input->callee == READ) {
        print_line(input->line, input->length);
        return;
    }
    printf("length %lu", (unsigned long)input->length);
    if (input->callee != DECLARE && input->callee != IDENTIFY && input->callee != END)
        printf(", thread %u", input->thread);
    if (input->callee == ENTER || input->callee == CALL || input->callee == ATTACH)
        printf(", env %" PRIu64, input->env);
    if (input->callee == CALL || input->callee == RETURN)
        printf(", function %u", input->function);
    if (input->callee == ENTER) {
        printf(", count %u, handles", input->count);
        for (i = 0; i < WEIR_HANDLES; i++)
            printf(" %" PRIu64, input->handles[i]);
    }
    if (input->callee == LEAVE || input->callee == RETURN)
        printf(", result %" PRIu64, input->result);
    if (input->callee == CALL)
        printf(", a %" PRIu64 ", b %" PRIu64 ", c %" PRIu64 ", n %d", input->a, input->b, input->c, input->n);
    if (input->callee == RETURN)
        printf(", status %d, pending %u", input->status, input->pending);
    if (input->callee == STATE)
        printf(", handle %" PRIu64, input->handle);
    if (input->callee == IDENTIFY)
        printf(", identity %" PRIu64 ", sort %u", input->identity, input->sort);
    if (input->callee == DECLARE || input->callee == STATE || input->callee == IDENTIFY)
        printf(", class %u", input->class_number);
    if (input->callee == IDENTIFY)
        printf(", static %u, final %u", input->is_static, input->is_final);
    if (input->callee == DECLARE)
        printf(", super %u", input->super_number);
}

int main(void)
{
    int failures = 0;
    size_t i;

    if (!on_the_stack()) {
        fprintf(stderr, "stack: no thread runs on a stack of this program\n");
        return 1;
    }
    for (i = 0; i < wrong_count; i++) {
        fprintf(stderr, "stack: not so: %s\n", wrongs[i]);
        failures++;
    }
    printf("%-13s %7s %6s %7s  %s\n", "function", "deepest", "bound", "inputs", "first input that goes so deep");
    for (i = 0; i < FUNCTIONS; i++) {
        const char *const name = functions[i].name;
        const unsigned long deepest = found[i].deepest;
        const unsigned long bound = functions[i].bound;

        printf("%-13s %7lu %6lu %7lu  ", name, deepest, bound, found[i].inputs);
        print_input(&found[i].input);
        putchar('\n');
        if (deepest > bound) {
            fprintf(stderr, "stack: %s takes %lu bytes, over its bound %lu\n", name, deepest, bound);
            failures++;
        }
        if (deepest < RETURN_ADDRESS) {
            fprintf(stderr, "stack: %s takes %lu bytes, less than a return address: nothing is measured\n", name, deepest);
            failures++;
        }
    }
    return failures != 0;
}
