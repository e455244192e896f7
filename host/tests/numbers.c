/*
 * Objects of any number of 64 bits, 64 of them live at a time: each call is made on bytes and on the struct, and must be
 * answered as it stands here. Then threads of one step, labels, the numbers of a journal, and what versions 7.0.0, 6.1.0
 * and 5.0.0 kept, as bytes and as a struct, which has to go on as before. Says how many calls were made. tools/hosts builds
 * and runs it.
 */
#include <inttypes.h>
#include <stdio.h>
#include <stdlib.h>
#include <string.h>

#include "gatekeeper.h"

enum { ALL = GATEKEEPER_ALL_SHOPS, LISTS = 24, CALLS = 300 };

/* Where objects, handles, kept needs, numbers and groups stand in a monitor's bytes; and where in those of version 7.0.0, of
 * which there were so many. */
enum { OBJECTS_AT = 96, HANDLES_AT = 288, NEEDS_AT = 1841, NUMBERS_AT = 2033, GROUPS_AT = 2545 };
enum { OLD_HANDLES_AT = 192, OLD_NEEDS_AT = 1745, OLD_NUMBERS_AT = 1841, OLD_GROUPS_AT = 2353, OLD_BYTES = 2385 };

/* The label with all shop marks, as the archive shows it. */
#define LABEL(level) (65536u * ALL + (level))

static const uint64_t HIGHEST = UINT64_MAX, WIDE = (uint64_t)1 << 32;

static uint8_t state[GATEKEEPER_STATE_BYTES];
static struct gatekeeper_monitor monitor;
static unsigned long calls;

static void fail(int line, const char *what)
{
    printf("numbers.c, line %d: %s\n", line, what);
    exit(1);
}
#define HOLDS(what) ((what) ? (void)0 : fail(__LINE__, #what))

/* The numbers of a call, and 0 for each that it does not use. */
#define WITH(...) ((const uint64_t[6]){__VA_ARGS__})

static uint32_t made(const char *what, int line, uint64_t code, const uint64_t n[6])
{
    uint32_t answer = gatekeeper_call(state, sizeof state, code, n[0], n[1], n[2], n[3], n[4], n[5]);
    uint32_t stepped = gatekeeper_monitor_step(&monitor, code, n[0], n[1], n[2], n[3], n[4], n[5]);
    calls++;
    if (answer != stepped) {
        printf("%s: %" PRIu32 " on bytes, %" PRIu32 " on the struct\n", what, answer, stepped);
        fail(line, "the two differ");
    }
    return answer;
}

/* The call is answered with this letter, this level or refusal, and so many shop marks lost. */
static void is(const char *what, int line, char letter, uint32_t value, uint32_t lost, uint64_t code, const uint64_t n[6])
{
    uint32_t answer = made(what, line, code, n);
    if (gatekeeper_letter(answer) != (uint32_t)letter || gatekeeper_value(answer) != value ||
        gatekeeper_lost(answer) != lost) {
        printf("%s: answered %c %" PRIu32 ", shop marks lost: %" PRIu32 "\n", what, (int)gatekeeper_letter(answer),
               gatekeeper_value(answer), gatekeeper_lost(answer));
        fail(line, "another answer");
    }
}
#define ALLOWED(value, code, ...) \
    is(#code " " #__VA_ARGS__, __LINE__, 'A', value, 0, GATEKEEPER_##code, WITH(__VA_ARGS__))
#define LOWERED(value, lost, code, ...) \
    is(#code " " #__VA_ARGS__, __LINE__, 'L', value, lost, GATEKEEPER_##code, WITH(__VA_ARGS__))
#define REFUSED(value, code, ...) \
    is(#code " " #__VA_ARGS__, __LINE__, 'R', GATEKEEPER_##value, 0, GATEKEEPER_##code, WITH(__VA_ARGS__))

static void begin(void)
{
    HOLDS(gatekeeper_empty(state, sizeof state));
    gatekeeper_monitor_empty(&monitor);
}

/* Whether the objects that are live are these, in rising order. */
static bool live(const uint64_t *numbers, size_t count)
{
    uint64_t from = 0;
    size_t at = 0;
    do {
        uint64_t o = gatekeeper_object_from(state, sizeof state, from);
        if (o < from || gatekeeper_object(state, sizeof state, o) == 0)
            break;
        if (at == count || numbers[at++] != o)
            return false;
        from = o + 1;
    } while (from != 0);
    return at == count;
}

/* ---- objects of any number */

static void any_number(void)
{
    const uint64_t numbers[] = {0, 63, 64, WIDE, HIGHEST};
    uint64_t place;
    begin();
    HOLDS(live(NULL, 0));
    ALLOWED(9, ADMIT, 0, 9, ALL);
    for (place = 0; place < 5; place++) {
        REFUSED(NO_OBJECT, OPEN_READ, 0, numbers[place], place);
        ALLOWED(9, REGISTER, numbers[place], 9, ALL);
        REFUSED(NUMBER_TAKEN, REGISTER, numbers[place], 9, ALL);
        REFUSED(NUMBER_TAKEN, CREATE, 0, numbers[place]);
        ALLOWED(9, OPEN_READ, 0, numbers[place], place);
        HOLDS(gatekeeper_handle(state, sizeof state, 0, place) == 256 * GATEKEEPER_WAY_READS);
        HOLDS(gatekeeper_handle_object(state, sizeof state, 0, place) == numbers[place]);
        HOLDS(monitor.numbers[monitor.handles[place].slot] == numbers[place]);
        HOLDS(live(numbers, (size_t)place + 1));
    }
    HOLDS(gatekeeper_object_from(state, sizeof state, 65) == WIDE);
    HOLDS(gatekeeper_object_from(state, sizeof state, WIDE + 1) == HIGHEST);
    HOLDS(gatekeeper_handle(state, sizeof state, 0, 5) == 0 && gatekeeper_handle_object(state, sizeof state, 0, 5) == 0);
    REFUSED(STILL_OPEN, RETIRE, HIGHEST);
    ALLOWED(9, CLOSE, 0, 4);
    ALLOWED(9, RETIRE, HIGHEST);
    REFUSED(NO_OBJECT, RETIRE, HIGHEST);
    HOLDS(gatekeeper_object_from(state, sizeof state, WIDE + 1) == 0 && live(numbers, 4));

    /* pipes, a channel and a program have such numbers, too */
    ALLOWED(9, PIPE, 0, HIGHEST, 5, 6);
    ALLOWED(9, FORK, 0, 1);
    ALLOWED(9, CONNECT, 0, 1, HIGHEST - 1, HIGHEST - 2, 7, 8);
    REFUSED(NUMBER_TAKEN, CONNECT, 0, 1, 7, 7, 9, 10);
    REFUSED(NUMBER_TAKEN, CONNECT, 0, 1, HIGHEST, 7, 9, 10);
    REFUSED(IS_PIPE, RETIRE, HIGHEST);
    REFUSED(IS_PIPE, EXEC, 0, HIGHEST - 1);
    ALLOWED(9, EXEC, 0, WIDE);
    ALLOWED(9, EXIT, 0);
    ALLOWED(9, EXIT, 1);
    HOLDS(live(numbers, 4));
}

/* ---- 64 live at a time */

static void so_many_live(void)
{
    uint64_t o;
    begin();
    ALLOWED(9, ADMIT, 0, 9, ALL);
    ALLOWED(5, ADMIT, 1, 5, ALL);
    for (o = 0; o < 62; o++)
        ALLOWED(9, REGISTER, WIDE * o, 9, ALL);
    ALLOWED(9, CONNECT, 0, 1, 7, HIGHEST, 0, 1); /* the 63rd and the 64th */

    REFUSED(TOO_MANY_OBJECTS, REGISTER, 8, 9, ALL);
    REFUSED(TOO_MANY_OBJECTS, CREATE, 0, 8);
    REFUSED(TOO_MANY_OBJECTS, PIPE, 0, 8, 2, 3);
    REFUSED(TOO_MANY_OBJECTS, CONNECT, 0, 1, 8, 9, 2, 3);
    /* after 3, and before all that comes after 3 */
    REFUSED(NUMBER_TAKEN, REGISTER, 0, 9, ALL);
    REFUSED(NUMBER_TAKEN, CONNECT, 0, 1, 8, 8, 2, 3);
    REFUSED(NO_SUBJECT, CREATE, 2, 8);
    REFUSED(SAME_SUBJECT, CONNECT, 0, 0, 8, 9, 2, 3);
    REFUSED(TOO_MANY_OBJECTS, REGISTER, 8, 16, ALL);
    REFUSED(TOO_MANY_OBJECTS, PIPE, 0, 8, 16, 16);
    REFUSED(TOO_MANY_OBJECTS, CONNECT, 0, 1, 8, 9, 16, 16);
    HOLDS(strcmp(gatekeeper_refusal_text(GATEKEEPER_TOO_MANY_OBJECTS),
                 "only 64 files and pipes may be live: retire a file or end a pipe") == 0);
    HOLDS(strcmp(gatekeeper_refusal_text(20), "no refusal") == 0);

    /* a retired file makes space for one more, and an ended pipe for another */
    ALLOWED(9, RETIRE, 0);
    REFUSED(TOO_MANY_OBJECTS, CONNECT, 0, 1, 8, 9, 2, 3);
    ALLOWED(9, REGISTER, 8, 9, ALL);
    REFUSED(TOO_MANY_OBJECTS, REGISTER, 9, 9, ALL);
    ALLOWED(9, CLOSE, 0, 1);
    REFUSED(TOO_MANY_OBJECTS, REGISTER, 9, 9, ALL);
    ALLOWED(5, CLOSE, 1, 0);
    ALLOWED(9, PIPE, 0, 9, 2, 3);
    REFUSED(TOO_MANY_OBJECTS, REGISTER, 10, 9, ALL);
    /* and two make space for a channel */
    ALLOWED(9, RETIRE, 8);
    ALLOWED(9, RETIRE, WIDE);
    ALLOWED(9, CONNECT, 0, 1, WIDE, 8, 4, 5);
    REFUSED(TOO_MANY_OBJECTS, CREATE, 0, 10);
}

/* ---- what has a range keeps it */

static void other_numbers(void)
{
    begin();
    ALLOWED(9, ADMIT, 0, 9, ALL);
    ALLOWED(9, REGISTER, 0, 9, ALL);
    ALLOWED(9, OPEN_READ, 0, 0, 0);
    REFUSED(NUMBER_TAKEN, ADMIT, WIDE, 9, ALL);
    REFUSED(NUMBER_TAKEN, ADMIT, HIGHEST, 9, ALL);
    REFUSED(NUMBER_TAKEN, FORK, 0, WIDE);
    REFUSED(NUMBER_TAKEN, FORK, 0, WIDE + 1);
    REFUSED(NO_SUBJECT, OPEN_READ, WIDE, 0, 1);
    REFUSED(NO_SUBJECT, CLOSE, WIDE, 0);
    REFUSED(NO_SUBJECT, READ, WIDE, 0);
    REFUSED(NO_SUBJECT, EXIT, WIDE);
    REFUSED(NO_SUBJECT, CONNECT, 0, WIDE, 1, 2, 3, 4);
    REFUSED(PLACE_UNFIT, READ, 0, WIDE);
    REFUSED(PLACE_UNFIT, CLOSE, 0, WIDE);
    REFUSED(PLACE_UNFIT, OPEN_READ, 0, 0, WIDE);
    REFUSED(PLACE_UNFIT, OPEN_WRITE, 0, 0, WIDE + 1);
    REFUSED(PLACE_UNFIT, PIPE, 0, 1, 1, WIDE + 2);
    REFUSED(PLACE_UNFIT, MARK, 0, WIDE);
    REFUSED(LEVEL_TOO_HIGH, ADMIT, 1, WIDE, ALL);
    REFUSED(LEVEL_TOO_HIGH, ADMIT, 1, WIDE + 16, ALL);
    REFUSED(LEVEL_TOO_HIGH, REGISTER, 1, WIDE + 9, ALL);
    REFUSED(LEVEL_TOO_HIGH, FREEZE, WIDE + 16);
    REFUSED(LEVEL_TOO_HIGH, FREEZE, WIDE);
    is("another code", __LINE__, 'R', GATEKEEPER_UNKNOWN_CODE, 0, WIDE + GATEKEEPER_ADMIT, WITH(1, 9, ALL));
    is("another code", __LINE__, 'R', GATEKEEPER_UNKNOWN_CODE, 0, WIDE + GATEKEEPER_CLOSE, WITH(0, 0));
    is("another code", __LINE__, 'R', GATEKEEPER_UNKNOWN_CODE, 0, WIDE + GATEKEEPER_OPEN_READ, WITH(0, 0, 1));
    HOLDS(gatekeeper_subject(state, sizeof state, 0) != 0 && gatekeeper_subject(state, sizeof state, WIDE) == 0);
    HOLDS(gatekeeper_handle(state, sizeof state, 0, 0) != 0 && gatekeeper_handle(state, sizeof state, WIDE, 0) == 0);
    HOLDS(gatekeeper_handle(state, sizeof state, 0, WIDE) == 0);
    HOLDS(gatekeeper_object(state, sizeof state, 0) != 0 && gatekeeper_object(state, sizeof state, WIDE) == 0);
}

/* ---- a slot used again has nothing of the object before */

static void used_again(void)
{
    uint64_t o;
    begin();
    ALLOWED(15, ADMIT, 0, 15, ALL);
    for (o = 0; o < 63; o++)
        ALLOWED(0, REGISTER, o, 0, ALL);
    /* the last one: a file of level 9 that is frozen, then a pipe, then a file of level 2 */
    ALLOWED(9, REGISTER, WIDE, 9, ALL);
    ALLOWED(9, OPEN_WRITE, 0, WIDE, 0);
    HOLDS(gatekeeper_object_need(state, sizeof state, WIDE) == LABEL(9));
    HOLDS(gatekeeper_subject_need(state, sizeof state, 0) == LABEL(9));
    ALLOWED(15, MARK, 0, 0);
    ALLOWED(15, CLOSE, 0, 0);
    ALLOWED(9, FREEZE, 9);
    REFUSED(FROZEN, OPEN_WRITE, 0, WIDE, 0);
    ALLOWED(9, RETIRE, WIDE);

    ALLOWED(15, PIPE, 0, HIGHEST, 0, 1);
    HOLDS(gatekeeper_object(state, sizeof state, WIDE) == 0 && gatekeeper_object_need(state, sizeof state, WIDE) == 0);
    HOLDS(gatekeeper_object(state, sizeof state, HIGHEST) == LABEL(256 * GATEKEEPER_KIND_PIPE + 15));
    HOLDS(gatekeeper_object_need(state, sizeof state, HIGHEST) == 0);
    HOLDS(gatekeeper_subject_need(state, sizeof state, 0) == 0);
    HOLDS(!gatekeeper_is_marked(gatekeeper_handle(state, sizeof state, 0, 0)));
    REFUSED(NO_OBJECT, OPEN_READ, 0, WIDE, 2);
    ALLOWED(15, OPEN_WRITE, 0, HIGHEST, 2);
    ALLOWED(15, EXIT, 0);

    ALLOWED(2, REGISTER, 63, 2, ALL);
    HOLDS(gatekeeper_object(state, sizeof state, HIGHEST) == 0);
    HOLDS(gatekeeper_object(state, sizeof state, 63) == LABEL(256 * GATEKEEPER_KIND_FILE + 2));
    HOLDS(gatekeeper_object_need(state, sizeof state, 63) == LABEL(2));
    ALLOWED(15, ADMIT, 0, 15, ALL);
    ALLOWED(2, OPEN_WRITE, 0, 63, 0);
    ALLOWED(2, OPEN_READ, 0, 63, 1);
    LOWERED(2, 0, READ, 0, 1);
    ALLOWED(2, WRITE, 0, 0);
}

/* ---- threads of one step */

/* Whether two subjects are in one group, on bytes and on the struct. */
static bool mates(uint64_t one, uint64_t other)
{
    uint32_t group = gatekeeper_group(state, sizeof state, one);
    bool shown = group != 0 && group == gatekeeper_group(state, sizeof state, other);
    bool kept = monitor.subjects[one].live != 0 && monitor.subjects[other].live != 0 &&
                monitor.groups[one] == monitor.groups[other];
    HOLDS(shown == kept);
    return shown;
}

static void threads(void)
{
    begin();
    HOLDS(gatekeeper_group(state, sizeof state, 0) == 0);
    REFUSED(NO_SUBJECT, THREAD, 4, 5);
    ALLOWED(9, ADMIT, 4, 9, ALL);
    REFUSED(NUMBER_TAKEN, THREAD, 4, 4);
    REFUSED(NUMBER_TAKEN, THREAD, 4, 32);
    REFUSED(NUMBER_TAKEN, THREAD, 4, WIDE + 5);
    REFUSED(NO_SUBJECT, THREAD, WIDE + 4, 5);
    ALLOWED(9, THREAD, 4, 31);
    ALLOWED(9, THREAD, 31, 2);
    HOLDS(mates(4, 31) && mates(4, 2) && mates(2, 31));
    HOLDS(gatekeeper_first_of(gatekeeper_group(state, sizeof state, 31)) == 2);
    HOLDS(gatekeeper_group(state, sizeof state, 32) == 0 && gatekeeper_group(state, sizeof state, WIDE + 4) == 0);
    ALLOWED(9, REGISTER, 0, 9, ALL);
    ALLOWED(2, REGISTER, 1, 2, ALL);
    ALLOWED(9, OPEN_WRITE, 4, 0, 0);
    HOLDS(gatekeeper_subject_need(state, sizeof state, 2) == LABEL(9) && monitor.needs[2] == 256 * 9 + ALL);
    REFUSED(FLOW, OPEN_READ, 2, 1, 0);
    ALLOWED(9, FORK, 2, 3);
    HOLDS(!mates(2, 3) && gatekeeper_subject_need(state, sizeof state, 3) == 0);
    ALLOWED(2, OPEN_READ, 3, 1, 0);
    ALLOWED(9, CLOSE, 4, 0);
    LOWERED(2, 0, MAP, 2, 1, 0);
    HOLDS(gatekeeper_subject(state, sizeof state, 4) == LABEL(256 + 2) && monitor.subjects[31].level == 2);
    HOLDS(gatekeeper_subject(state, sizeof state, 3) == LABEL(256 + 9));
    /* an exec ends the others, with their handles; a refused one ends nobody */
    ALLOWED(2, OPEN_WRITE, 31, 1, 7);
    ALLOWED(0, REGISTER, 5, 0, ALL);
    REFUSED(FLOW, EXEC, 31, 5);
    HOLDS(mates(4, 31) && mates(2, 31));
    LOWERED(0, 0, EXEC, 4, 5);
    HOLDS(gatekeeper_group(state, sizeof state, 4) == 256 + 4 && gatekeeper_group(state, sizeof state, 2) == 0);
    HOLDS(monitor.subjects[2].live == 0 && monitor.subjects[31].live == 0);
    HOLDS(gatekeeper_made(state, sizeof state) == 4 && gatekeeper_gone(state, sizeof state) == 3);
    HOLDS(monitor.counts[GATEKEEPER_MADE] == 4 && monitor.counts[GATEKEEPER_GONE] == 3);
    /* the first of a group may go, and its number be another step's */
    ALLOWED(0, THREAD, 4, 6);
    ALLOWED(0, EXIT, 4);
    ALLOWED(7, ADMIT, 4, 7, ALL);
    HOLDS(!mates(4, 6));
}

/* ---- labels */

/* The set of shop marks of a subject and of an object, on bytes and on the struct. */
static uint32_t shops_of_subject(uint64_t s)
{
    uint32_t shops = gatekeeper_shops_of(gatekeeper_subject(state, sizeof state, s));
    HOLDS(shops == monitor.subjects[s].shops && shops == state[3 * s + 2]);
    return shops;
}

static uint32_t shops_of_object(uint64_t o)
{
    uint32_t shops = gatekeeper_shops_of(gatekeeper_object(state, sizeof state, o));
    unsigned slot = 0;
    while (monitor.objects[slot].kind == 0 || monitor.numbers[slot] != o)
        slot++;
    HOLDS(shops == monitor.objects[slot].shops);
    return shops;
}

/* The need of a subject: 256 times its level, and its set. */
static uint32_t need_of(uint64_t s)
{
    uint32_t need = gatekeeper_subject_need(state, sizeof state, s);
    uint32_t packed = 256 * gatekeeper_level_of(need) + gatekeeper_shops_of(need);
    HOLDS(packed == monitor.needs[s]);
    HOLDS(state[NEEDS_AT + 2 * s] == packed % 256 && state[NEEDS_AT + 2 * s + 1] == packed / 256);
    return packed;
}

static void labels(void)
{
    begin();
    /* a set is at most 255, and the number that cannot be used is said first */
    REFUSED(LEVEL_TOO_HIGH, ADMIT, 0, 9, 256);
    REFUSED(LEVEL_TOO_HIGH, REGISTER, 0, 9, WIDE);
    REFUSED(LEVEL_TOO_HIGH, REGISTER, 0, 16, 0);
    REFUSED(NUMBER_TAKEN, ADMIT, 32, 9, 256);
    HOLDS(strcmp(gatekeeper_refusal_text(GATEKEEPER_LEVEL_TOO_HIGH),
                 "the level is above 15, the set above 255, or a freeze above 16") == 0);
    /* step 0 with the marks of shop groups 0 and 1; files of the same level, for group 0 and for group 1; a program for
     * group 0, of a higher level */
    ALLOWED(9, ADMIT, 0, 9, 3);
    ALLOWED(9, REGISTER, 0, 9, 1);
    ALLOWED(9, REGISTER, 1, 9, 2);
    ALLOWED(12, REGISTER, 2, 12, 1);
    HOLDS(shops_of_subject(0) == 3 && shops_of_object(0) == 1 && shops_of_object(1) == 2);
    HOLDS(gatekeeper_level_of(gatekeeper_subject(state, sizeof state, 0)) == 9);
    HOLDS(gatekeeper_kind_of(gatekeeper_object(state, sizeof state, 1)) == GATEKEEPER_KIND_FILE);
    HOLDS(need_of(0) == 0);

    /* each of the two files is below the other */
    ALLOWED(9, OPEN_WRITE, 0, 0, 0);
    HOLDS(need_of(0) == 256 * 9 + 1);
    REFUSED(FLOW, OPEN_READ, 0, 1, 1);
    REFUSED(FLOW, EXEC, 0, 1);
    ALLOWED(9, OPEN_WRITE, 0, 1, 1);
    HOLDS(need_of(0) == 256 * 9 + 3);
    REFUSED(FLOW, OPEN_READ, 0, 0, 2);
    ALLOWED(9, CLOSE, 0, 1);
    HOLDS(need_of(0) == 256 * 9 + 1);
    /* a mark alone is lost, and with it the way to the other file */
    LOWERED(9, 1, EXEC, 0, 2);
    HOLDS(shops_of_subject(0) == 1 && gatekeeper_level_of(gatekeeper_subject(state, sizeof state, 0)) == 9);
    REFUSED(FLOW, OPEN_WRITE, 0, 1, 1);
    ALLOWED(9, EXEC, 0, 2);
    ALLOWED(9, CLOSE, 0, 0);
    ALLOWED(9, OPEN_READ, 0, 1, 1);
    LOWERED(9, 1, READ, 0, 1);
    HOLDS(shops_of_subject(0) == 0);

    /* a pipe loses all eight, and keeps its level; who reads it likewise, with its mates */
    ALLOWED(9, ADMIT, 1, 9, ALL);
    ALLOWED(9, THREAD, 1, 2);
    ALLOWED(9, CONNECT, 0, 1, 5, 6, 3, 4);
    HOLDS(shops_of_object(5) == 0 && shops_of_object(6) == ALL);
    LOWERED(9, 8, READ, 1, 3);
    HOLDS(shops_of_subject(1) == 0 && shops_of_subject(2) == 0);
    LOWERED(9, 8, WRITE, 1, 4);
    HOLDS(shops_of_object(6) == 0);
    ALLOWED(9, FORK, 2, 3);
    HOLDS(shops_of_subject(3) == 0);
    /* level and marks together, by a map; the file keeps its own */
    ALLOWED(15, ADMIT, 4, 15, 0xf1);
    LOWERED(12, 4, MAP, 4, 2, 0);
    HOLDS(shops_of_subject(4) == 1 && shops_of_object(2) == 1);
    ALLOWED(12, CREATE, 4, 7);
    HOLDS(shops_of_object(7) == 1);

    /* a freeze asks for the level alone, and is said before the flow */
    ALLOWED(9, FREEZE, 9);
    REFUSED(FROZEN, OPEN_WRITE, 0, 1, 0);
    ALLOWED(8, REGISTER, 8, 8, 2);
    REFUSED(FLOW, OPEN_WRITE, 0, 8, 0);
    ALLOWED(8, REGISTER, 9, 8, 0);
    ALLOWED(8, OPEN_WRITE, 0, 9, 0);
    ALLOWED(15, REGISTER, 10, 15, 0);
    REFUSED(FROZEN, OPEN_WRITE, 0, 10, 2);
}

/* ---- what version 7.0.0 kept, in which there were no sets; version 6.1.0, in which each subject was by itself as well; and
 * version 5.0.0, with the objects 0 to 63 */

static uint64_t seed = 3;

/* A drawn number below a limit. */
static uint64_t drawn(uint32_t limit)
{
    seed = seed * 6364136223846793005u + 1442695040888963407u;
    return (uint32_t)(seed >> 33) % limit;
}

static uint32_t draw(uint8_t *bytes, struct gatekeeper_monitor *other, uint32_t codes)
{
    /* files and pipes come more often than the rest, and few subjects and places, which meet more often */
    static const uint8_t often[] = {GATEKEEPER_REGISTER, GATEKEEPER_PIPE, GATEKEEPER_OPEN_READ, GATEKEEPER_OPEN_WRITE};
    uint64_t code = drawn(3) ? often[drawn(4)] : 1 + drawn(codes), n[6], s = drawn(4), o = drawn(64), p = drawn(17);
    uint32_t x, y, z;
    n[0] = code == GATEKEEPER_REGISTER || code == GATEKEEPER_RETIRE ? o : s;
    n[1] = code == GATEKEEPER_ADMIT || code == GATEKEEPER_REGISTER ? p : n[0] == s ? o : drawn(64);
    if (code >= GATEKEEPER_READ && code != GATEKEEPER_EXEC && code != GATEKEEPER_MAP)
        n[1] = drawn(17);
    n[2] = code == GATEKEEPER_CONNECT ? o : code == GATEKEEPER_ADMIT || code == GATEKEEPER_REGISTER ? (uint64_t)ALL : p;
    n[3] = drawn(code == GATEKEEPER_CONNECT ? 64 : 16);
    n[4] = drawn(16), n[5] = drawn(16);
    x = made("a drawn call", __LINE__, code, n);
    y = gatekeeper_call(bytes, GATEKEEPER_STATE_BYTES, code, n[0], n[1], n[2], n[3], n[4], n[5]);
    z = gatekeeper_monitor_step(other, code, n[0], n[1], n[2], n[3], n[4], n[5]);
    if (x != y || x != z)
        fail(__LINE__, "what was kept goes on otherwise");
    return x;
}

/* Whether the two show the same of every number that is drawn, and of one more. */
static bool same(const uint8_t *other)
{
    size_t len = sizeof state;
    uint64_t i, p;
    for (i = 0; i < 65; i++)
        if (gatekeeper_object(state, len, i) != gatekeeper_object(other, len, i) ||
            gatekeeper_object_need(state, len, i) != gatekeeper_object_need(other, len, i) ||
            gatekeeper_object_from(state, len, i) != gatekeeper_object_from(other, len, i))
            return false;
    for (i = 0; i < 5; i++) {
        if (gatekeeper_subject(state, len, i) != gatekeeper_subject(other, len, i) ||
            gatekeeper_subject_need(state, len, i) != gatekeeper_subject_need(other, len, i) ||
            gatekeeper_group(state, len, i) != gatekeeper_group(other, len, i))
            return false;
        for (p = 0; p < 16; p++)
            if (gatekeeper_handle(state, len, i, p) != gatekeeper_handle(other, len, i, p) ||
                gatekeeper_handle_object(state, len, i, p) != gatekeeper_handle_object(other, len, i, p))
                return false;
    }
    return gatekeeper_made(state, len) == gatekeeper_made(other, len) &&
           gatekeeper_gone(state, len) == gatekeeper_gone(other, len) &&
           gatekeeper_frozen_from(state, len) == gatekeeper_frozen_from(other, len);
}

/* The bytes that version 7.0.0 had of this monitor: no sets, and kept needs of one byte, here any. */
static void old_bytes(uint8_t old[OLD_BYTES])
{
    size_t i;
    memset(old, 0xa5, OLD_BYTES);
    for (i = 0; i < HANDLES_AT / 3; i++)
        memcpy(old + 2 * i, state + 3 * i, 2);
    memcpy(old + OLD_HANDLES_AT, state + HANDLES_AT, NEEDS_AT - HANDLES_AT);
    memcpy(old + OLD_NUMBERS_AT, state + NUMBERS_AT, sizeof state - NUMBERS_AT);
}

/* The bytes of this version that those of version 7.0.0 are, but for the kept needs. */
static void from_version_7(uint8_t kept[GATEKEEPER_STATE_BYTES], const uint8_t old[OLD_BYTES])
{
    size_t i;
    memset(kept, 0x5a, GATEKEEPER_STATE_BYTES);
    for (i = 0; i < HANDLES_AT / 3; i++) {
        memcpy(kept + 3 * i, old + 2 * i, 2);
        kept[3 * i + 2] = ALL;
    }
    memcpy(kept + HANDLES_AT, old + OLD_HANDLES_AT, OLD_NEEDS_AT - OLD_HANDLES_AT);
    memcpy(kept + NUMBERS_AT, old + OLD_NUMBERS_AT, OLD_BYTES - OLD_NUMBERS_AT);
}

static void kept_before(void)
{
    static uint8_t kept[GATEKEEPER_STATE_BYTES], old[OLD_BYTES];
    static struct gatekeeper_monitor filled;
    unsigned long allowed = 0;
    int list, call, i, k;
    HOLDS(!gatekeeper_put_right(old, sizeof old) && !gatekeeper_empty(old, sizeof old));
    for (list = 0; list < LISTS; list++) {
        const int version = 5 + list % 3;
        begin();
        for (call = 0; call < CALLS; call++) {
            if (call % 100 == 0) {
                /* the bytes of 7.0.0, or of 6.1.0, or of 5.0.0; and then those of this version that they are */
                old_bytes(old);
                for (i = 0; i < GATEKEEPER_OBJECTS && version == 5; i++)
                    for (k = 0; k < 8; k++)
                        old[OLD_NUMBERS_AT + 8 * i + k] = (uint8_t)((uint64_t)i >> (8 * k));
                for (i = 0; i < GATEKEEPER_SUBJECTS && version < 7; i++)
                    old[OLD_GROUPS_AT + i] = (uint8_t)i;
                from_version_7(kept, old);
                HOLDS(gatekeeper_put_right(kept, sizeof kept));
                HOLDS(same(kept));
                /* the struct likewise */
                memset(&filled, 0xa5, sizeof filled);
                memcpy(filled.handles, monitor.handles, sizeof filled.handles);
                memcpy(filled.counts, monitor.counts, sizeof filled.counts);
                filled.freeze = monitor.freeze;
                filled.sure = 0;
                for (i = 0; i < GATEKEEPER_OBJECTS; i++) {
                    filled.objects[i].kind = monitor.objects[i].kind;
                    filled.objects[i].level = monitor.objects[i].level;
                    filled.objects[i].shops = ALL;
                    filled.numbers[i] = version > 5 ? monitor.numbers[i] : (uint64_t)i;
                }
                for (i = 0; i < GATEKEEPER_SUBJECTS; i++) {
                    filled.subjects[i].live = monitor.subjects[i].live;
                    filled.subjects[i].level = monitor.subjects[i].level;
                    filled.subjects[i].shops = ALL;
                    filled.groups[i] = version > 6 ? monitor.groups[i] : (uint8_t)i;
                }
                HOLDS(gatekeeper_monitor_assure(&filled) == 1 && filled.sure == 1);
                for (i = 0; i < GATEKEEPER_SUBJECTS; i++)
                    HOLDS(monitor.subjects[i].live == 0 || filled.needs[i] == monitor.needs[i]);
            }
            /* threads came with version 7.0.0 */
            allowed += gatekeeper_allows(draw(kept, &filled, version > 6 ? 18 : 17));
        }
        HOLDS(same(kept));
    }
    HOLDS(allowed > LISTS * CALLS / 10);
}

/* ---- the numbers of a journal */

static void in_journals(void)
{
    const uint64_t numbers[] = {0, 127, 128, 16383, 16384, UINT32_MAX, WIDE, HIGHEST - 1, HIGHEST};
    uint8_t record[GATEKEEPER_RECORD_ROOM + 1], bytes[11];
    uint64_t value = 7;
    uint32_t used, at, i;
    for (i = 0; i < sizeof numbers / sizeof numbers[0]; i++) {
        uint32_t length = gatekeeper_record(record, sizeof record, GATEKEEPER_RETIRE, numbers[i], 0, 0, 0, 0, 0);
        HOLDS(length > 256 + 2 && record[0] == length - 257);
        used = gatekeeper_number(record + 2, length - 258, &value);
        HOLDS(used == length - 258 && value == numbers[i]);
    }
    HOLDS(used == 10);

    /* a record of the greatest length, and one byte too little room for it */
    memset(record, 7, sizeof record);
    HOLDS(gatekeeper_record(record, GATEKEEPER_RECORD_ROOM - 1, GATEKEEPER_CONNECT, HIGHEST, HIGHEST, HIGHEST, HIGHEST,
                            HIGHEST, HIGHEST) == GATEKEEPER_RECORD_TOO_LONG);
    for (at = 0; at < sizeof record; at++)
        HOLDS(record[at] == 7);
    HOLDS(gatekeeper_record(record, sizeof record, GATEKEEPER_CONNECT, HIGHEST, HIGHEST, HIGHEST, HIGHEST, HIGHEST,
                            HIGHEST) == 256 + GATEKEEPER_RECORD_ROOM);
    HOLDS(record[GATEKEEPER_RECORD_ROOM] == 7);
    HOLDS(gatekeeper_record(record, sizeof record, WIDE + 1, 0, 0, 0, 0, 0, 0) == GATEKEEPER_UNKNOWN_CODE);

    /* malformed ones leave the value */
    value = 7;
    memset(bytes, 0xff, sizeof bytes);
    HOLDS(gatekeeper_number(bytes, 0, &value) == 0 && value == 7);
    HOLDS(gatekeeper_number(bytes, 9, &value) == 0 && value == 7);
    HOLDS(gatekeeper_number(bytes, sizeof bytes, &value) == 0 && value == 7);
    bytes[9] = 2; /* above the highest */
    HOLDS(gatekeeper_number(bytes, sizeof bytes, &value) == 0 && value == 7);
    bytes[9] = 0; /* longer than it need be */
    HOLDS(gatekeeper_number(bytes, sizeof bytes, &value) == 0 && value == 7);
    bytes[9] = 1;
    HOLDS(gatekeeper_number(bytes, sizeof bytes, &value) == 10 && value == HIGHEST);
}

int main(void)
{
    any_number();
    so_many_live();
    other_numbers();
    used_again();
    threads();
    labels();
    kept_before();
    in_journals();
    printf("%lu calls with numbers of 64 bits, on bytes and on the struct, were answered as they should\n", calls);
    return 0;
}
