/*
 * The chain behind a refusal 9, gatekeeper_why on bytes and gatekeeper_monitor_why on the struct: the cases of March, what
 * is lent where there is nothing to tell, and bytes of another length. Then drawn lists of calls, of which each is asked
 * about before it is made: there is a chain where it is refused with 9 and nowhere else, each of its steps is a handle that
 * is open or that the call asks for, and neither monitor has changed. Says how many chains there were. tools/hosts builds and
 * runs it.
 */
#include <inttypes.h>
#include <stdio.h>
#include <stdlib.h>
#include <string.h>

#include "gatekeeper.h"

enum { ALL = GATEKEEPER_ALL_SHOPS, LISTS = 60, CALLS = 300 };
enum { SHEET = 1, BOOK = 7, PROGRAM = 20 };
static const uint64_t PIPE = (uint64_t)1 << 40;

static uint8_t state[GATEKEEPER_STATE_BYTES];
static struct gatekeeper_monitor monitor;
static struct gatekeeper_chain chain; /* the one that was told last */
static unsigned long chains;

static void fail(int line, const char *what)
{
    printf("why.c, line %d: %s\n", line, what);
    exit(1);
}
#define HOLDS(what) ((what) ? (void)0 : fail(__LINE__, #what))

/* The numbers of a call, and 0 for each that it does not use. */
#define WITH(...) ((const uint64_t[6]){__VA_ARGS__})

static void begin(void)
{
    HOLDS(gatekeeper_empty(state, sizeof state));
    gatekeeper_monitor_empty(&monitor);
}

static uint32_t made(uint64_t code, const uint64_t n[6])
{
    uint32_t answer = gatekeeper_call(state, sizeof state, code, n[0], n[1], n[2], n[3], n[4], n[5]);
    HOLDS(answer == gatekeeper_monitor_step(&monitor, code, n[0], n[1], n[2], n[3], n[4], n[5]));
    return answer;
}
#define MADE(code, ...) HOLDS(gatekeeper_allows(made(GATEKEEPER_##code, WITH(__VA_ARGS__))))

/* What is lent to be written over: it has no byte of a chain. */
static struct gatekeeper_chain marked(void)
{
    struct gatekeeper_chain lent;
    memset(&lent, 0xa5, sizeof lent);
    return lent;
}

/* Asks about a call, on bytes and on the struct, which have to tell the same and stay as they are; the count. */
static uint32_t asked(uint64_t code, const uint64_t n[6])
{
    static uint8_t kept[GATEKEEPER_STATE_BYTES];
    static struct gatekeeper_monitor kept_monitor;
    struct gatekeeper_chain one = marked(), other = marked(), before = marked();
    memcpy(kept, state, sizeof kept);
    memcpy(&kept_monitor, &monitor, sizeof kept_monitor);
    uint32_t count = gatekeeper_why(state, sizeof state, code, n[0], n[1], n[2], n[3], n[4], n[5], &one);
    HOLDS(count == gatekeeper_monitor_why(&monitor, code, n[0], n[1], n[2], n[3], n[4], n[5], &other));
    HOLDS(memcmp(kept, state, sizeof kept) == 0 && memcmp(&kept_monitor, &monitor, sizeof kept_monitor) == 0);
    HOLDS(count <= GATEKEEPER_STEPS);
    /* The struct has no byte between its fields. */
    if (count == 0) {
        HOLDS(memcmp(&one, &before, sizeof one) == 0 && memcmp(&other, &before, sizeof other) == 0);
    } else {
        HOLDS(one.count == count && other.count == count && one.kind == other.kind);
        HOLDS(one.low == other.low && one.high == other.high);
        HOLDS(memcmp(one.steps, other.steps, count * sizeof one.steps[0]) == 0);
        HOLDS(one.kind == GATEKEEPER_FRONT_SUBJECT || one.kind == GATEKEEPER_FRONT_OBJECT);
        chain = one;
        chains++;
    }
    return count;
}

/* The call is refused with 9, and this stands behind it: the front, the file, and the places as 16 s + p. */
static void told(int line, uint64_t code, const uint64_t n[6], uint8_t kind, uint64_t low, uint64_t high, uint32_t count,
                 const uint16_t *steps)
{
    uint32_t answer;
    if (asked(code, n) != count || chain.kind != kind || chain.low != low || chain.high != high ||
        memcmp(chain.steps, steps, count * sizeof steps[0]) != 0)
        fail(line, "another chain");
    answer = made(code, n);
    if (gatekeeper_letter(answer) != GATEKEEPER_REFUSED || gatekeeper_value(answer) != GATEKEEPER_FLOW)
        fail(line, "the call is not refused with 9");
}
#define STEPS(...) sizeof((const uint16_t[]){__VA_ARGS__}) / sizeof(uint16_t), (const uint16_t[]){__VA_ARGS__}
#define AT(s, p) ((s) * GATEKEEPER_PLACES + (p))
#define TOLD(code, numbers, kind, low, high, ...) \
    told(__LINE__, GATEKEEPER_##code, numbers, GATEKEEPER_FRONT_##kind, low, high, STEPS(__VA_ARGS__))
#define NOTHING(code, ...) HOLDS(asked(code, WITH(__VA_ARGS__)) == 0)

/* Step 0 of level 9, the pay book of level 9, an hours sheet of level 2 and a program of level 2. */
static void march(void)
{
    begin();
    MADE(ADMIT, 0, 9, ALL);
    MADE(REGISTER, BOOK, 9, ALL);
    MADE(REGISTER, SHEET, 2, ALL);
    MADE(REGISTER, PROGRAM, 2, ALL);
}

static void cases(void)
{
    march();
    MADE(OPEN_WRITE, 0, BOOK, 3);
    TOLD(OPEN_READ, WITH(0, SHEET, 4), OBJECT, SHEET, BOOK, AT(0, 4), AT(0, 3));
    TOLD(MAP, WITH(0, SHEET, 4), OBJECT, SHEET, BOOK, AT(0, 4), AT(0, 3));
    TOLD(EXEC, WITH(0, PROGRAM), OBJECT, PROGRAM, BOOK, AT(0, 3));
    /* Not refused with 9: with 2, 4 and 7, with 1, and not at all. */
    NOTHING(GATEKEEPER_OPEN_READ, 1, SHEET, 4);
    NOTHING(GATEKEEPER_OPEN_READ, 0, 2, 4);
    NOTHING(GATEKEEPER_OPEN_READ, 0, SHEET, 3);
    NOTHING(0, 0, SHEET, 4);
    NOTHING(19, 0, SHEET, 4);
    NOTHING(UINT64_MAX, 0, SHEET, 4);
    NOTHING(GATEKEEPER_WRITE, 0, 3);
    NOTHING(GATEKEEPER_OPEN_READ, 0, BOOK, 4);
    /* A marked handle ends when a program is run. */
    MADE(MARK, 0, 3);
    NOTHING(GATEKEEPER_EXEC, 0, PROGRAM);

    march();
    MADE(PIPE, 0, PIPE, 0, 1);
    MADE(FORK, 0, 1);
    MADE(OPEN_WRITE, 1, BOOK, 5);
    TOLD(OPEN_READ, WITH(0, SHEET, 6), OBJECT, SHEET, BOOK, AT(0, 6), AT(0, 1), AT(1, 0), AT(1, 5));

    march();
    MADE(THREAD, 0, 2);
    MADE(OPEN_WRITE, 2, BOOK, 5);
    TOLD(OPEN_READ, WITH(0, SHEET, 6), OBJECT, SHEET, BOOK, AT(0, 6), AT(2, 5));

    march();
    MADE(ADMIT, 31, 2, ALL);
    MADE(OPEN_WRITE, 0, BOOK, 5);
    TOLD(CONNECT, WITH(0, 31, 100, 101, 2, 3), SUBJECT, 31, BOOK, AT(31, 3), AT(0, 2), AT(0, 5));
}

/* A wrong length is nothing to tell, whatever the bytes and the call are. */
static void lengths(void)
{
    static uint8_t bytes[2 * GATEKEEPER_STATE_BYTES];
    static const size_t wrong[] = {0, 1, GATEKEEPER_STATE_BYTES - 1, GATEKEEPER_STATE_BYTES + 1, sizeof bytes};
    march();
    MADE(OPEN_WRITE, 0, BOOK, 3);
    memcpy(bytes, state, sizeof state);
    for (size_t at = 0; at < sizeof wrong / sizeof wrong[0]; at++) {
        struct gatekeeper_chain lent = marked(), before = marked();
        HOLDS(gatekeeper_why(bytes, wrong[at], GATEKEEPER_OPEN_READ, 0, SHEET, 4, 0, 0, 0, &lent) == 0);
        HOLDS(memcmp(&lent, &before, sizeof lent) == 0);
    }
    struct gatekeeper_chain lent = marked();
    HOLDS(gatekeeper_why(bytes, GATEKEEPER_STATE_BYTES, GATEKEEPER_OPEN_READ, 0, SHEET, 4, 0, 0, 0, &lent) == 2);
}

static uint64_t seed = 11;

/* A drawn number below a limit. */
static uint32_t drawn(uint32_t limit)
{
    seed = seed * 6364136223846793005u + 1442695040888963407u;
    return (uint32_t)(seed >> 33) % limit;
}

/* Whether the call asks for a handle at this place of this subject. */
static bool seeks(uint64_t code, const uint64_t n[6], uint64_t s, uint64_t p)
{
    switch (code) {
    case GATEKEEPER_OPEN_READ:
    case GATEKEEPER_OPEN_WRITE:
    case GATEKEEPER_MAP: return s == n[0] && p == n[2];
    case GATEKEEPER_CONNECT: return (s == n[0] || s == n[1]) && (p == n[4] || p == n[5]);
    default: return false;
    }
}

static void lists(void)
{
    static const uint8_t codes[] = {1, 1, 2, 2, 3, 4, 4, 5, 5, 5, 6, 6, 6, 7, 8, 9, 10, 10, 11, 14, 15, 17, 17, 18};
    for (int list = 0; list < LISTS; list++) {
        begin();
        for (int call = 0; call < CALLS; call++) {
            uint64_t code = codes[drawn(sizeof codes)];
            uint64_t n[6] = {drawn(12), drawn(20), drawn(16), drawn(16), drawn(16), drawn(16)};
            if (code <= GATEKEEPER_REGISTER) {
                n[1] = drawn(3) ? 9 : drawn(16);
                n[2] = ALL - (drawn(4) ? 0 : drawn(4));
            } else if (code == GATEKEEPER_CONNECT) {
                n[1] = drawn(12);
                n[2] = drawn(20);
                n[3] = drawn(20);
            }
            uint32_t count = asked(code, n);
            for (uint32_t i = 0; i < count; i++) {
                uint64_t s = chain.steps[i] / GATEKEEPER_PLACES, p = chain.steps[i] % GATEKEEPER_PLACES;
                HOLDS(gatekeeper_handle(state, sizeof state, s, p) != 0 || seeks(code, n, s, p));
            }
            uint32_t file = count == 0 ? 0 : gatekeeper_object(state, sizeof state, chain.high);
            HOLDS(count == 0 || gatekeeper_kind_of(file) == GATEKEEPER_KIND_FILE);
            uint32_t answer = made(code, n);
            bool is_nine = gatekeeper_letter(answer) == GATEKEEPER_REFUSED && gatekeeper_value(answer) == GATEKEEPER_FLOW;
            HOLDS(is_nine == (count != 0));
        }
    }
}

int main(void)
{
    cases();
    lengths();
    unsigned long of_cases = chains;
    lists();
    HOLDS(chains > of_cases + 100);
    printf("%lu chains behind refusals 9, alike on bytes and on the struct\n", chains);
    return 0;
}
