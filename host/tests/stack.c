/*
 * How much stack the functions of the archive take: each is called on a thread whose stack has been painted, and what
 * is no longer painted afterwards has been used. Prints the most that each took, and fails where one took more than
 * GATEKEEPER_STACK_BYTES. tools/hosts builds and runs it.
 *
 * The calls are those of many drawn lists and of drawn lines, from an empty monitor and from drawn bytes, on bytes and on
 * the struct, and journals of the greatest length and long lines, so that every code, answer and refusal is met. What is
 * seen is what these calls took: no proof.
 */
#include <inttypes.h>
#include <pthread.h>
#include <stdio.h>
#include <stdlib.h>
#include <string.h>

#include "gatekeeper.h"

enum { STACK = 8 << 20, PAINT = 0xa5, LISTS = 400, CALLS = 400, JOURNALS = 12, LINES = 8, WHYS = 60, NUMBERS_AT = 2033, GROUPS_AT = 2545 };

static uint8_t *stack;       /* the thread's, painted */
static const uint8_t *above; /* where the thread stands when it calls */
static uint64_t seed = 1;
static uint8_t state[GATEKEEPER_STATE_BYTES];
static struct gatekeeper_monitor monitor;
static uint8_t journal[GATEKEEPER_JOURNAL_BYTES];
static uint8_t reply[GATEKEEPER_REPLY_ROOM];
static char line[20000];
static unsigned long met[256]; /* how many answers had each value, refused ones from 128 on */
static unsigned long quick[2]; /* how many opens, and closes, were allowed in place */
static unsigned long typed[3]; /* how many calls of lines were allowed, lowered and refused */
static struct gatekeeper_chain chain;
static unsigned long told[2];  /* of how many calls there was no chain, and of how many one */
static unsigned long ended[3]; /* how many lines were run, refused with 18 and with 19 */

/* A drawn number below a limit. */
static uint32_t drawn(uint32_t limit)
{
    seed = seed * 6364136223846793005u + 1442695040888963407u;
    return (uint32_t)(seed >> 33) % limit;
}

/* An object's number: a small one, or one far from it with the same lowest bits. */
static uint64_t object(uint32_t few)
{
    static const uint64_t start[] = {0, 64, (uint64_t)1 << 32, UINT64_MAX - 63};
    return start[drawn(4)] + drawn(few);
}

static void note(uint32_t answer)
{
    met[(gatekeeper_allows(answer) ? 0 : 128) + gatekeeper_value(answer) % 128]++;
}

/* The code and the numbers of a call. */
static uint64_t n[7];

static void draw(uint32_t few)
{
    n[0] = 1 + drawn(19);
    n[1] = n[0] == GATEKEEPER_REGISTER || n[0] == GATEKEEPER_RETIRE ? object(few) : drawn(few);
    n[2] = n[0] <= GATEKEEPER_REGISTER || n[0] >= GATEKEEPER_MARK || drawn(2) ? drawn(few) : object(few);
    n[3] = n[0] == GATEKEEPER_CONNECT ? object(few) : drawn(few);
    n[4] = n[0] == GATEKEEPER_CONNECT ? object(few) : drawn(few);
    if (n[0] <= GATEKEEPER_REGISTER)
        n[3] = drawn(3) ? GATEKEEPER_ALL_SHOPS : drawn(257); /* a set of shop marks */
    n[5] = drawn(17);
    n[6] = drawn(17);
}

static void one_call(void)
{
    draw(drawn(4) ? 6 : 40); /* small numbers meet more often */
    note(gatekeeper_call(state, sizeof state, n[0], n[1], n[2], n[3], n[4], n[5], n[6]));
}

static void one_monitor_call(void)
{
    draw(drawn(4) ? 6 : 40);
    note(gatekeeper_monitor_call(&monitor, n[0], n[1], n[2], n[3], n[4], n[5], n[6]));
}

static void one_monitor_step(void)
{
    draw(drawn(4) ? 6 : 40);
    note(gatekeeper_monitor_step(&monitor, n[0], n[1], n[2], n[3], n[4], n[5], n[6]));
}

/* An open or a close in place, and nothing where it is not that simple. */
static void one_quick_call(void)
{
    uint8_t *subjects = (uint8_t *)monitor.subjects, *objects = (uint8_t *)monitor.objects;
    uint8_t *handles = (uint8_t *)monitor.handles;
    uint32_t few = drawn(4) ? 6 : 40, answer;
    uint64_t code = drawn(2) ? GATEKEEPER_CLOSE : GATEKEEPER_OPEN_READ + drawn(2);
    uint64_t s = drawn(few), o = drawn(2) ? monitor.numbers[drawn(64)] : object(few), p = drawn(17);
    if (code == GATEKEEPER_CLOSE)
        answer = gatekeeper_quick_close(subjects, sizeof monitor.subjects, objects, sizeof monitor.objects, handles,
                                        sizeof monitor.handles, monitor.needs, 96, monitor.counts, 2,
                                        monitor.freeze, monitor.sure, s, p);
    else
        answer = gatekeeper_quick_open(monitor.numbers, 64, subjects, sizeof monitor.subjects, objects,
                                       sizeof monitor.objects, handles, sizeof monitor.handles, monitor.needs,
                                       96, monitor.counts, 2, monitor.freeze, monitor.sure, code, s, o,
                                       p);
    if (gatekeeper_allows(answer))
        quick[code == GATEKEEPER_CLOSE]++;
}

/* A call that is asked about, and then made. */
static void one_why(void)
{
    draw(drawn(4) ? 6 : 40);
    told[gatekeeper_why(state, sizeof state, n[0], n[1], n[2], n[3], n[4], n[5], n[6], &chain) != 0]++;
    note(gatekeeper_call(state, sizeof state, n[0], n[1], n[2], n[3], n[4], n[5], n[6]));
}

static void one_monitor_why(void)
{
    draw(drawn(4) ? 6 : 40);
    told[gatekeeper_monitor_why(&monitor, n[0], n[1], n[2], n[3], n[4], n[5], n[6], &chain) != 0]++;
    note(gatekeeper_monitor_call(&monitor, n[0], n[1], n[2], n[3], n[4], n[5], n[6]));
}

/* Drawn bytes; their numbers are small ones, so that they meet those of calls and each other. */
static void draw_state(void)
{
    for (size_t at = 0; at < sizeof state; at++)
        state[at] = at >= NUMBERS_AT && at < GROUPS_AT ? (uint8_t)((at - NUMBERS_AT) % 8 == 0 ? drawn(64) : 0)
                                                       : (uint8_t)drawn(drawn(2) ? 4 : 256);
}

static void on_states(int lists, void (*one)(void))
{
    for (int list = 0; list < lists; list++) {
        if (list % 2 == 0) {
            if (!gatekeeper_empty(state, sizeof state))
                exit(1);
        } else {
            draw_state();
        }
        for (uint64_t o = 0; list % 3 == 0 && o < 60; o++)
            note(gatekeeper_call(state, sizeof state, GATEKEEPER_REGISTER, o << 32, o % 16, drawn(256), 0, 0, 0));
        for (int call = 0; call < CALLS; call++)
            one();
    }
}

static void calls(void) { on_states(LISTS, one_call); }

static void whys(void) { on_states(WHYS, one_why); }

static void draw_monitor(uint8_t sure)
{
    uint8_t *bytes = (uint8_t *)&monitor;
    for (size_t at = 0; at < sizeof monitor; at++)
        bytes[at] = (uint8_t)drawn(drawn(2) ? 4 : 256);
    for (int slot = 0; slot < 64; slot++)
        monitor.numbers[slot] = drawn(4) ? drawn(64) : object(40);
    monitor.sure = sure;
}

/* The same with the struct. Of those that are drawn, half say that calls made them. */
static void on_monitors(int lists, void (*one)(void))
{
    for (int list = 0; list < lists; list++) {
        if (list % 2 == 0)
            gatekeeper_monitor_empty(&monitor);
        else
            draw_monitor(list % 4 == 1);
        for (uint64_t o = 0; list % 3 == 0 && o < 60; o++)
            note(gatekeeper_monitor_call(&monitor, GATEKEEPER_REGISTER, o << 32, o % 16, drawn(256), 0, 0, 0));
        for (int call = 0; call < CALLS; call++)
            one();
    }
}

static void monitor_calls(void) { on_monitors(LISTS, one_monitor_call); }

static void monitor_steps(void) { on_monitors(LISTS, one_monitor_step); }

static void monitor_whys(void) { on_monitors(WHYS, one_monitor_why); }

/* No other function of the archive is called here. */
static void quick_calls(void)
{
    for (int list = 0; list < LISTS; list++) {
        draw_monitor(1);
        for (int call = 0; call < CALLS; call++)
            one_quick_call();
    }
}

static void note_line(struct gatekeeper_line_outcome outcome)
{
    typed[0] += outcome.allowed;
    typed[1] += outcome.lowered;
    typed[2] += outcome.refused;
    ended[outcome.refusal == 0 ? 0 : outcome.refusal == GATEKEEPER_LINE_BROKEN ? 1 : 2]++;
}

/* A drawn line of a few pipelines, now and then with too many stages, or with a byte that does not fit; its length. */
static size_t draw_line(void)
{
    size_t length = 0;
    for (uint32_t left = 1 + drawn(3); left > 0; left--) {
        uint32_t stages = drawn(20) ? 1 + drawn(8) : 9;
        for (uint32_t stage = 0; stage < stages; stage++) {
            length += (size_t)sprintf(line + length, "%s%" PRIu64, stage ? " | " : "", object(6));
            if (drawn(2))
                length += (size_t)sprintf(line + length, " <%" PRIu64, object(6));
            if (drawn(2))
                length += (size_t)sprintf(line + length, " >%" PRIu64, object(6));
        }
        if (left > 1)
            line[length++] = ';';
    }
    if (drawn(8) == 0)
        line[drawn((uint32_t)length)] = (char)drawn(256);
    return length;
}

/* Many times one text, and a 7 as its last byte; its length. */
static size_t draw_long_line(int which)
{
    static const char *const texts[] = {" ", "9", "1;", "1|", "<1", "0<0>0|1;"};
    const char *text = texts[which % 6];
    size_t length = 0;
    while (length + strlen(text) < sizeof line) {
        memcpy(line + length, text, strlen(text));
        length += strlen(text);
    }
    line[length - 1] = '7';
    return length;
}

static void one_line(size_t length)
{
    uint64_t shell = drawn(6), child = drawn(10) ? drawn(32) : UINT64_MAX, pipe = object(6);
    note_line(gatekeeper_line(state, sizeof state, (const uint8_t *)line, length, shell, child, pipe));
}

static void one_monitor_line(size_t length)
{
    uint64_t shell = drawn(6), child = drawn(10) ? drawn(32) : UINT64_MAX, pipe = object(6);
    note_line(gatekeeper_monitor_line(&monitor, (const uint8_t *)line, length, shell, child, pipe));
}

/* Lines after some calls, and long ones. */
static void typed_lines(void)
{
    for (int list = 0; list < LISTS; list++) {
        if (list % 2 != 0)
            draw_state();
        else if (!gatekeeper_empty(state, sizeof state))
            exit(1);
        for (int call = 0; call < 100; call++)
            one_call();
        for (int count = 0; count < LINES; count++)
            one_line(list < 2 && count < 6 ? draw_long_line(count) : draw_line());
    }
}

static void monitor_lines(void)
{
    for (int list = 0; list < LISTS; list++) {
        if (list % 2 == 0)
            gatekeeper_monitor_empty(&monitor);
        else
            draw_monitor(list % 4 == 1);
        for (int call = 0; call < 100; call++)
            one_monitor_call();
        for (int count = 0; count < LINES; count++)
            one_monitor_line(list < 2 && count < 6 ? draw_long_line(count) : draw_line());
    }
}

static void empty(void)
{
    if (!gatekeeper_empty(state, sizeof state))
        exit(1);
}

static void monitor_empty(void) { gatekeeper_monitor_empty(&monitor); }

static void counts(void)
{
    if (gatekeeper_made(state, sizeof state) + gatekeeper_gone(state, sizeof state) + gatekeeper_state_bytes() == 0)
        exit(1);
}

/* What the tables show of drawn bytes. */
static void looks(void)
{
    for (int list = 0; list < LISTS; list++) {
        draw_state();
        uint64_t s = drawn(33), p = drawn(17), o = drawn(70), number = object(40);
        met[gatekeeper_subject(state, sizeof state, s) % 256]++;
        met[gatekeeper_group(state, sizeof state, s) % 128]++;
        met[gatekeeper_object(state, sizeof state, o) % 256]++;
        met[gatekeeper_handle(state, sizeof state, s, p) % 256]++;
        met[gatekeeper_handle_object(state, sizeof state, s, p) % 256]++;
        met[gatekeeper_object_from(state, sizeof state, o) % 256]++;
        met[gatekeeper_object_from(state, sizeof state, number) % 256]++;
        met[gatekeeper_subject_need(state, sizeof state, s) % 128]++;
        met[gatekeeper_object_need(state, sizeof state, o) % 128]++;
        met[gatekeeper_frozen_from(state, sizeof state) % 128]++;
    }
}

static void put_right(void)
{
    for (int list = 0; list < LISTS; list++) {
        draw_state();
        if (!gatekeeper_put_right(state, sizeof state))
            exit(1);
    }
}

static void assures(void)
{
    for (int list = 0; list < LISTS; list++) {
        draw_monitor(0);
        if (gatekeeper_monitor_assure(&monitor) > 1)
            exit(1);
    }
}

static void replays(void)
{
    for (int which = 0; which < JOURNALS; which++) {
        size_t length = 0;
        while (which > 0 && length + GATEKEEPER_RECORD_ROOM < sizeof journal) {
            uint32_t few = which % 2 ? 6 : 40;
            draw(few);
            if (n[0] == 19)
                continue;
            uint32_t bytes = gatekeeper_record(journal + length, GATEKEEPER_RECORD_ROOM, n[0], n[1], n[2], n[3], n[4],
                                               n[5], n[6]);
            length += bytes % 256;
        }
        /* the first one is of empty records alone, as many as there can be */
        memset(journal + length, 0, sizeof journal - length);
        if (gatekeeper_replay(journal, sizeof journal, reply, sizeof reply) == 0)
            exit(1);
    }
}

static void records(void)
{
    uint8_t room[GATEKEEPER_RECORD_ROOM];
    const uint64_t most = UINT64_MAX;
    for (uint64_t code = 0; code < 21; code++) {
        uint32_t written = gatekeeper_record(room, sizeof room, code, most, most, most, most, most, most);
        if (written == 0)
            exit(1);
    }
}

static void numbers(void)
{
    uint8_t bytes[12];
    for (int which = 0; which < 20000; which++) {
        size_t length = drawn(sizeof bytes + 1);
        for (size_t at = 0; at < length; at++)
            bytes[at] = (uint8_t)(drawn(3) ? 128 + drawn(128) : drawn(128));
        uint64_t value = 0;
        met[gatekeeper_number(bytes, length, &value) == 0]++;
    }
}

static void *on_thread(void *work)
{
    uint8_t here;
    above = &here;
    (*(void (**)(void))work)();
    return NULL;
}

/* The most stack that a piece of work takes, in bytes. */
static size_t taken(void (*work)(void))
{
    pthread_attr_t attributes;
    pthread_t thread;
    memset(stack, PAINT, STACK);
    if (pthread_attr_init(&attributes) || pthread_attr_setstack(&attributes, stack, STACK) ||
        pthread_create(&thread, &attributes, on_thread, &work) || pthread_join(thread, NULL)) {
        fputs("stack: no thread can be made\n", stderr);
        exit(2);
    }
    pthread_attr_destroy(&attributes);
    size_t lowest = 0;
    while (lowest < STACK && stack[lowest] == PAINT)
        lowest++;
    return (size_t)(above - (stack + lowest));
}

int main(void)
{
    static const struct {
        const char *name;
        void (*work)(void);
    } works[] = {{"gatekeeper_call", calls},
                 {"gatekeeper_empty", empty},
                 {"gatekeeper_monitor_call", monitor_calls},
                 {"gatekeeper_monitor_step", monitor_steps},
                 {"gatekeeper_quick_open, close", quick_calls},
                 {"gatekeeper_line", typed_lines},
                 {"gatekeeper_monitor_line", monitor_lines},
                 {"gatekeeper_why", whys},
                 {"gatekeeper_monitor_why", monitor_whys},
                 {"gatekeeper_monitor_empty", monitor_empty},
                 {"gatekeeper_monitor_assure", assures},
                 {"gatekeeper_made, gone", counts},
                 {"what the tables show", looks},
                 {"gatekeeper_put_right", put_right},
                 {"gatekeeper_replay", replays},
                 {"gatekeeper_record", records},
                 {"gatekeeper_number", numbers}};
    size_t most = 0;
    void *bytes;
    if (posix_memalign(&bytes, 4096, STACK))
        return 2;
    stack = bytes;
    for (size_t at = 0; at < sizeof works / sizeof works[0]; at++) {
        size_t depth = taken(works[at].work);
        printf("%-28s %6zu bytes of stack\n", works[at].name, depth);
        if (depth > most)
            most = depth;
    }
    for (uint32_t refusal = 1; refusal <= 17; refusal++)
        if (met[128 + refusal] == 0 && (refusal <= 10 || refusal >= 15)) {
            fprintf(stderr, "stack: no drawn call was refused with %u\n", (unsigned)refusal);
            return 1;
        }
    if (quick[0] == 0 || quick[1] == 0) {
        fputs("stack: no drawn open, or no drawn close, was allowed in place\n", stderr);
        return 1;
    }
    if (typed[0] == 0 || typed[1] == 0 || typed[2] == 0 || ended[0] == 0 || ended[1] == 0 || ended[2] == 0) {
        fputs("stack: no call of a drawn line was allowed, lowered or refused, or no line was run or refused\n", stderr);
        return 1;
    }
    if (told[0] == 0 || told[1] == 0) {
        fputs("stack: no drawn call had a chain, or all had one\n", stderr);
        return 1;
    }
    printf("the most: %zu of %d bytes\n", most, GATEKEEPER_STACK_BYTES);
    return most <= GATEKEEPER_STACK_BYTES ? 0 : 1;
}
