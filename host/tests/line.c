/*
 * Typed lines, on bytes and on the struct, which must have the same outcome and leave the same tables: lines that are run,
 * with their counts and with what they leave, each beside its calls made one by one; lines that are refused, and bytes of
 * another length, which leave everything as it was. Says how many lines were tried. tools/hosts builds and runs it.
 */
#include <inttypes.h>
#include <stdio.h>
#include <stdlib.h>
#include <string.h>

#include "gatekeeper.h"

enum { MOST = 8 };

static const uint64_t HIGHEST = UINT64_MAX;

static uint8_t state[GATEKEEPER_STATE_BYTES];
static struct gatekeeper_monitor monitor;
static unsigned long lines;

static void fail(int line, const char *what)
{
    printf("line.c, line %d: %s\n", line, what);
    exit(1);
}
#define HOLDS(what) ((what) ? (void)0 : fail(__LINE__, #what))

/* ---- both monitors */

/* A call on both, which is allowed. */
static void call(int line, uint64_t code, uint64_t a, uint64_t b, uint64_t c)
{
    uint32_t answer = gatekeeper_call(state, sizeof state, code, a, b, c, 0, 0, 0);
    if (answer != gatekeeper_monitor_step(&monitor, code, a, b, c, 0, 0, 0) || !gatekeeper_allows(answer))
        fail(line, "a call before the line differs on the struct, or is refused");
}
#define CALL(code, a, b, c) call(__LINE__, GATEKEEPER_##code, a, b, c)

/* The shell is step 3, of level 12. Files: hours that nobody has checked, of level 2; hours that were checked, and the pay
 * book, of level 9. Programs: of level 12, and of level 9. */
enum { SHELL = 3, LOW = 1, HOURS = 2, BOOK = 4, ADDER = 20, LISTER = 21, ALL = GATEKEEPER_ALL_SHOPS };

static void begin(void)
{
    HOLDS(gatekeeper_empty(state, sizeof state));
    gatekeeper_monitor_empty(&monitor);
    CALL(ADMIT, SHELL, 12, ALL);
    CALL(REGISTER, LOW, 2, ALL);
    CALL(REGISTER, HOURS, 9, ALL);
    CALL(REGISTER, BOOK, 9, ALL);
    CALL(REGISTER, ADDER, 12, ALL);
    CALL(REGISTER, LISTER, 9, ALL);
}

/* A kept need of the struct, as it is shown of bytes. */
static uint32_t shown(uint16_t need) { return 65536u * (need % 256u) + need / 256u; }

/* Whether the bytes show what stands in the struct. */
static bool shows(const uint8_t *bytes, const struct gatekeeper_monitor *m)
{
    const size_t len = GATEKEEPER_STATE_BYTES;
    uint64_t from = 0, s, p;
    int i, used = 0;
    for (s = 0; s < GATEKEEPER_SUBJECTS; s++) {
        uint32_t seen = 65536u * m->subjects[s].shops + 256u + m->subjects[s].level;
        if (gatekeeper_subject(bytes, len, s) != (m->subjects[s].live ? seen : 0u) ||
            gatekeeper_subject_need(bytes, len, s) != (m->subjects[s].live ? shown(m->needs[s]) : 0u))
            return false;
        for (p = 0; p < GATEKEEPER_PLACES; p++) {
            uint8_t way = m->handles[16 * s + p].way, slot = m->handles[16 * s + p].slot, mark = m->handles[16 * s + p].mark;
            if (gatekeeper_handle(bytes, len, s, p) != (way ? 256u * way + 65536u * mark : 0) ||
                gatekeeper_handle_object(bytes, len, s, p) != (way ? m->numbers[slot] : 0))
                return false;
        }
    }
    for (i = 0; i < GATEKEEPER_OBJECTS; i++) {
        if (m->objects[i].kind == 0)
            continue;
        used++;
        if (gatekeeper_object(bytes, len, m->numbers[i]) !=
                65536u * m->objects[i].shops + 256u * m->objects[i].kind + m->objects[i].level ||
            gatekeeper_object_need(bytes, len, m->numbers[i]) != shown(m->needs[GATEKEEPER_SUBJECTS + i]))
            return false;
    }
    do {
        uint64_t o = gatekeeper_object_from(bytes, len, from);
        if (o < from || gatekeeper_object(bytes, len, o) == 0)
            break;
        used--;
        from = o + 1;
    } while (from != 0);
    return used == 0 && gatekeeper_frozen_from(bytes, len) == m->freeze && m->sure == 1 &&
           gatekeeper_made(bytes, len) == m->counts[GATEKEEPER_MADE] &&
           gatekeeper_gone(bytes, len) == m->counts[GATEKEEPER_GONE];
}

/* Whether every field of the two is the same. */
static bool same(const struct gatekeeper_monitor *a, const struct gatekeeper_monitor *b)
{
    return memcmp(a->numbers, b->numbers, sizeof a->numbers) == 0 &&
           memcmp(a->subjects, b->subjects, sizeof a->subjects) == 0 &&
           memcmp(a->objects, b->objects, sizeof a->objects) == 0 &&
           memcmp(a->handles, b->handles, sizeof a->handles) == 0 && a->freeze == b->freeze &&
           memcmp(a->needs, b->needs, sizeof a->needs) == 0 && a->sure == b->sure && a->counts[0] == b->counts[0] &&
           a->counts[1] == b->counts[1];
}

/* ---- lines */

static struct gatekeeper_line_outcome outcome(uint64_t allowed, uint64_t lowered, uint64_t refused, uint64_t refusal)
{
    struct gatekeeper_line_outcome made = {allowed, lowered, refused, refusal};
    return made;
}

static bool alike(struct gatekeeper_line_outcome a, struct gatekeeper_line_outcome b)
{
    return a.allowed == b.allowed && a.lowered == b.lowered && a.refused == b.refused && a.refusal == b.refusal;
}

/* The line has this outcome on both, which then show the same: RULES H29. Where it is refused, both are as they were:
 * RULES R125. */
static void typed(int at, const char *text, size_t len, uint64_t shell, uint64_t child, uint64_t pipe,
                  struct gatekeeper_line_outcome expected)
{
    static uint8_t before[GATEKEEPER_STATE_BYTES];
    struct gatekeeper_monitor lent = monitor;
    const uint8_t *line = (const uint8_t *)text;
    struct gatekeeper_line_outcome on_bytes, on_struct;
    memcpy(before, state, sizeof state);
    on_bytes = gatekeeper_line(state, sizeof state, line, len, shell, child, pipe);
    on_struct = gatekeeper_monitor_line(&monitor, line, len, shell, child, pipe);
    lines++;
    if (!alike(on_bytes, expected) || !alike(on_struct, expected)) {
        printf("'%.60s': %" PRIu64 " allowed, %" PRIu64 " lowered, %" PRIu64 " refused, refusal %" PRIu64 " on bytes; ", text,
               on_bytes.allowed, on_bytes.lowered, on_bytes.refused, on_bytes.refusal);
        printf("%" PRIu64 ", %" PRIu64 ", %" PRIu64 ", %" PRIu64 " on the struct\n", on_struct.allowed, on_struct.lowered,
               on_struct.refused, on_struct.refusal);
        fail(at, "another outcome");
    }
    if (!shows(state, &monitor))
        fail(at, "the bytes and the struct differ after the line");
    if (expected.refusal != 0 && (memcmp(before, state, sizeof state) != 0 || !same(&lent, &monitor)))
        fail(at, "a refused line changed something");
}
#define RUN(text, shell, child, pipe, allowed, lowered, refused) \
    typed(__LINE__, text, sizeof text - 1, shell, child, pipe, outcome(allowed, lowered, refused, 0))
#define REFUSED(text, refusal) \
    typed(__LINE__, text, sizeof text - 1, SHELL, 5, 100, outcome(0, 0, 0, GATEKEEPER_##refusal))

/* A stage: its program, and what it reads and writes, where it has that. */
struct stage {
    uint64_t program, reads, writes;
    bool has_reads, has_writes;
};

static struct gatekeeper_line_outcome counts;

static void count(uint8_t *bytes, uint64_t code, uint64_t a, uint64_t b, uint64_t c, uint64_t d)
{
    uint32_t letter = gatekeeper_letter(gatekeeper_call(bytes, GATEKEEPER_STATE_BYTES, code, a, b, c, d, 0, 0));
    counts.allowed += letter == GATEKEEPER_ALLOWED;
    counts.lowered += letter == GATEKEEPER_LOWERED;
    counts.refused += letter == GATEKEEPER_REFUSED;
}

/* The calls of a pipeline one by one, as the header has them: RULES L7 to L11. */
static void by_calls(uint8_t *bytes, const struct stage *stages, uint64_t n, uint64_t shell, uint64_t child, uint64_t pipe)
{
    uint64_t i, p, ends = 2 * (n - 1);
    for (i = 0; i + 1 < n; i++)
        count(bytes, GATEKEEPER_PIPE, shell, pipe + i, 2 * i, 2 * i + 1);
    for (i = 0; i < n; i++) {
        count(bytes, GATEKEEPER_FORK, shell, child + i, 0, 0);
        for (p = 0; p < ends; p++)
            if (p + 2 != 2 * i && p != 2 * i + 1)
                count(bytes, GATEKEEPER_CLOSE, child + i, p, 0, 0);
        if (stages[i].has_reads)
            count(bytes, GATEKEEPER_OPEN_READ, child + i, stages[i].reads, 14, 0);
        if (stages[i].has_writes)
            count(bytes, GATEKEEPER_OPEN_WRITE, child + i, stages[i].writes, 15, 0);
        count(bytes, GATEKEEPER_EXEC, child + i, stages[i].program, 0, 0);
    }
    for (p = 0; p < ends; p++)
        count(bytes, GATEKEEPER_CLOSE, shell, p, 0, 0);
    for (i = 0; i < n; i++)
        count(bytes, GATEKEEPER_EXIT, child + i, 0, 0, 0);
}

/* ---- lines that are run */

static void simple_ones(void)
{
    begin();
    /* a fork, an exec, an exit; the second program brings the child down */
    RUN("20", SHELL, 5, 100, 3, 0, 0);
    RUN("21", SHELL, 5, 100, 2, 1, 0);
    RUN(" 20 ;21;  20", SHELL, 5, 100, 8, 1, 0);
    /* no such program, and no such shell: its child, too, is not there */
    RUN("18446744073709551615", SHELL, 5, 100, 2, 0, 1);
    RUN("20", 4, 5, 100, 0, 0, 3);
    HOLDS(gatekeeper_made(state, sizeof state) == 0);

    /* hours that were checked come into the pay book; those that were not do not, and all other calls are made */
    RUN("20<2|20>4", SHELL, 5, 100, 13, 0, 0);
    RUN("20 < 1 | 20 > 4", SHELL, 5, 100, 12, 0, 1);
    /* two for the pipe, two for each of the two forks, and those opened: all are gone */
    HOLDS(gatekeeper_made(state, sizeof state) == 6 + 2 + 6 + 1);
    HOLDS(gatekeeper_gone(state, sizeof state) == gatekeeper_made(state, sizeof state));
    HOLDS(gatekeeper_subject(state, sizeof state, SHELL) == 65536u * ALL + 256 + 12);
    HOLDS(gatekeeper_subject(state, sizeof state, 5) == 0 && gatekeeper_subject(state, sizeof state, 6) == 0);
    HOLDS(gatekeeper_object(state, sizeof state, 100) == 0);
}

/* Shop marks: a program with fewer of them brings the child down, and what lacks a book's does not come into it. */
static void marked_ones(void)
{
    begin();
    CALL(REGISTER, 30, 12, 3); /* a program for shop groups 0 and 1 */
    CALL(REGISTER, 31, 9, 2);  /* hours for group 1, and a book for each of the two */
    CALL(REGISTER, 32, 9, 1);
    CALL(REGISTER, 33, 9, 2);
    RUN("30", SHELL, 5, 100, 2, 1, 0);
    RUN("30 <31 >33", SHELL, 5, 100, 4, 1, 0);
    RUN("30 <31 >32", SHELL, 5, 100, 3, 1, 1);
    RUN("30 <31 | 20 >32", SHELL, 5, 100, 11, 1, 1);
    HOLDS(gatekeeper_subject(state, sizeof state, SHELL) == 65536u * ALL + 256 + 12);
}

/* What stays behind where the shell has handles and the numbers are in use: RULES L13. */
static void what_is_held(void)
{
    begin();
    CALL(OPEN_READ, SHELL, HOURS, 1);
    CALL(OPEN_WRITE, SHELL, BOOK, 13);
    CALL(ADMIT, 6, 15, ALL);
    CALL(REGISTER, 101, 9, ALL);
    /* Of two pipes 100 finds place 1 taken, and 101 its number. Child 0 is forked as 5, with both handles: its close at 0, 2
     * and 3 finds nothing. Child 1 is 6, which is there: it keeps its level, has no handle at 1 and 2, falls when it runs
     * the program, and exits. Child 2 is forked as 7, and closes at 1. */
    RUN("20|21|20", SHELL, 5, 100, 9, 1, 13);
    HOLDS(gatekeeper_handle(state, sizeof state, SHELL, 1) == 0); /* the shell has closed it as its end */
    HOLDS(gatekeeper_way_of(gatekeeper_handle(state, sizeof state, SHELL, 13)) == GATEKEEPER_WAY_WRITES);
    HOLDS(gatekeeper_handle_object(state, sizeof state, SHELL, 13) == BOOK);
    HOLDS(gatekeeper_subject(state, sizeof state, 6) == 0); /* it has left as a child */
    HOLDS(gatekeeper_object(state, sizeof state, 101) == 65536u * ALL + 256 * GATEKEEPER_KIND_FILE + 9);
    HOLDS(gatekeeper_subject_need(state, sizeof state, SHELL) == 65536u * ALL + 9);

    /* the shell as its own child runs the program itself, falls and leaves */
    RUN("21", SHELL, SHELL, 100, 1, 1, 1);
    HOLDS(gatekeeper_subject(state, sizeof state, SHELL) == 0);
    HOLDS(gatekeeper_made(state, sizeof state) == gatekeeper_gone(state, sizeof state));
}

/* RULES L7. */
static void numbers_wrap(void)
{
    begin();
    /* child 0 is none that can be: its fork, close, exec and exit are refused; child 1 is step 0 */
    RUN("20 | 20", SHELL, HIGHEST, 100, 7, 0, 4);
    RUN("20 | 20 | 20", SHELL, HIGHEST - 1, 100, 12, 0, 11);
    /* where step 0 is there, it falls when it runs the program, and leaves */
    CALL(ADMIT, 0, 15, ALL);
    RUN("20 | 20", SHELL, HIGHEST, 100, 4, 1, 6);
    HOLDS(gatekeeper_subject(state, sizeof state, 0) == 0);
    /* pipe 0 has the highest number, and pipe 1 is 0; then that is a file's */
    RUN("20 | 20 | 20", SHELL, 5, HIGHEST, 23, 0, 0);
    CALL(REGISTER, 0, 9, ALL);
    RUN("20 | 20 | 20", SHELL, 5, HIGHEST, 16, 0, 7);
    /* both start again at each `;` */
    RUN("20 | 20 ; 20 | 20", SHELL, HIGHEST, HIGHEST, 14, 0, 8);
    HOLDS(gatekeeper_subject(state, sizeof state, 0) == 0 && gatekeeper_object(state, sizeof state, HIGHEST) == 0);
}

/* Eight stages that read and write: 159 calls, RULES L15. */
static void eight_stages(void)
{
    static uint8_t bytes[GATEKEEPER_STATE_BYTES];
    struct stage stages[MOST];
    char text[400] = "";
    int i, held;
    for (i = 0; i < MOST; i++) {
        struct stage stage = {i % 2 ? LISTER : ADDER, HOURS, BOOK, true, true};
        stages[i] = stage;
        sprintf(text + strlen(text), "%s%d <%d >%d", i ? " | " : "", i % 2 ? LISTER : ADDER, HOURS, BOOK);
    }
    /* the second time with handles of the shell at places that the line uses */
    for (held = 0; held < 2; held++) {
        begin();
        if (held) {
            CALL(OPEN_READ, SHELL, LOW, 2);
            CALL(OPEN_READ, SHELL, HOURS, 14);
            CALL(MARK, SHELL, 14, 0);
        }
        memcpy(bytes, state, sizeof bytes);
        counts = outcome(0, 0, 0, 0);
        by_calls(bytes, stages, MOST, SHELL, 5, 100);
        HOLDS(counts.allowed + counts.lowered + counts.refused == 159);
        HOLDS(counts.lowered == 4 && counts.refused == (held ? 24 : 0));
        typed(__LINE__, text, strlen(text), SHELL, 5, 100, counts);
        HOLDS(shows(bytes, &monitor));
    }
}

/* ---- lines that are refused */

static void refused_ones(void)
{
    begin();
    CALL(OPEN_READ, SHELL, HOURS, 0);
    REFUSED("", LINE_BROKEN);
    REFUSED(" ", LINE_BROKEN);
    REFUSED(";", LINE_BROKEN);
    REFUSED("20;", LINE_BROKEN);
    REFUSED(";20", LINE_BROKEN);
    REFUSED("20;;20", LINE_BROKEN);
    REFUSED("20|", LINE_BROKEN);
    REFUSED("|20", LINE_BROKEN);
    REFUSED("20 | | 20", LINE_BROKEN);
    REFUSED("20 20", LINE_BROKEN);
    REFUSED("2 0 < 1", LINE_BROKEN);
    REFUSED("<1", LINE_BROKEN);
    REFUSED("20 <", LINE_BROKEN);
    REFUSED("20 <> 4", LINE_BROKEN);
    REFUSED("20 > 4 < 1", LINE_BROKEN);
    REFUSED("20 < 1 < 1", LINE_BROKEN);
    REFUSED("20 > 4 > 4", LINE_BROKEN);
    REFUSED("020", LINE_BROKEN);
    REFUSED("00", LINE_BROKEN);
    REFUSED("20 < 01", LINE_BROKEN);
    REFUSED("18446744073709551616", LINE_BROKEN);
    REFUSED("20 > 99999999999999999999", LINE_BROKEN);
    REFUSED("20\n", LINE_BROKEN);
    REFUSED("20\t|20", LINE_BROKEN);
    REFUSED("20\0", LINE_BROKEN);
    REFUSED("20 & 20", LINE_BROKEN);
    REFUSED("+20", LINE_BROKEN);
    REFUSED("-1", LINE_BROKEN);
    REFUSED("0x14", LINE_BROKEN);
    REFUSED("\xef\xbc\x92", LINE_BROKEN); /* a 2 that is none in ASCII */

    REFUSED("20|20|20|20|20|20|20|20|20", TOO_MANY_STAGES);
    REFUSED("20; 20|20|20|20|20|20|20|20|20 ;20", TOO_MANY_STAGES);
    REFUSED("20|20|20|20|20|20|20|20|20|20|20|20|20|20|20|20|20|20", TOO_MANY_STAGES);
    /* 18 is tested over all of the bytes before 19 */
    REFUSED("20|20|20|20|20|20|20|20|20;", LINE_BROKEN);
    REFUSED("20|20|20|20|20|20|20|20|20 ; 20 20", LINE_BROKEN);

    HOLDS(GATEKEEPER_LINE_BROKEN == 18 && GATEKEEPER_TOO_MANY_STAGES == 19);
    HOLDS(strcmp(gatekeeper_refusal_text(GATEKEEPER_LINE_BROKEN), "the line is not well formed") == 0);
    HOLDS(strcmp(gatekeeper_refusal_text(GATEKEEPER_TOO_MANY_STAGES), "a pipeline has more than eight stages") == 0);
    HOLDS(strcmp(gatekeeper_refusal_text(GATEKEEPER_NOT_A_STATE), "no refusal") == 0);
}

/* Whatever the line is: RULES H29. */
static void another_length(void)
{
    static const size_t lengths[] = {0, 1, GATEKEEPER_STATE_BYTES - 1, GATEKEEPER_STATE_BYTES + 1,
                                     2 * GATEKEEPER_STATE_BYTES};
    static const char *const texts[] = {"20", "20 <2 | 20 >4", "", "20;", "20|20|20|20|20|20|20|20|20"};
    static uint8_t bytes[2 * GATEKEEPER_STATE_BYTES], before[sizeof bytes];
    size_t i, k;
    begin();
    memcpy(bytes, state, sizeof state);
    memcpy(bytes + sizeof state, state, sizeof state);
    memcpy(before, bytes, sizeof bytes);
    for (i = 0; i < sizeof lengths / sizeof lengths[0]; i++)
        for (k = 0; k < sizeof texts / sizeof texts[0]; k++) {
            const uint8_t *line = (const uint8_t *)texts[k];
            lines++;
            HOLDS(alike(gatekeeper_line(bytes, lengths[i], line, strlen(texts[k]), SHELL, 5, 100),
                        outcome(0, 0, 0, GATEKEEPER_NOT_A_STATE)));
            HOLDS(memcmp(bytes, before, sizeof bytes) == 0);
        }
}

int main(void)
{
    simple_ones();
    marked_ones();
    what_is_held();
    numbers_wrap();
    eight_stages();
    refused_ones();
    another_length();
    printf("%lu lines, on bytes and on the struct, came out as they should\n", lines);
    return 0;
}
