/*
 * The line that joins the two ways of a call on the struct, gatekeeper_monitor_step: each call of drawn lists is made with
 * it on one monitor, with gatekeeper_monitor_call on a second and with gatekeeper_call on bytes, and must be answered
 * alike and leave the same tables, needs and counts. Objects have numbers all over the range, and in every third list nearly
 * as many are live as can be. Says how many calls were done in place. tools/hosts builds and runs it.
 */
#include <inttypes.h>
#include <stdio.h>
#include <string.h>

#include "gatekeeper.h"

enum { LISTS = 300, CALLS = 600 };

static uint64_t seed = 7;

/* A drawn number below a limit. */
static uint32_t drawn(uint32_t limit)
{
    seed = seed * 6364136223846793005u + 1442695040888963407u;
    return (uint32_t)(seed >> 33) % limit;
}

/* A set of shop marks: in most lists of calls all of them, but for few; now and then any, or one that is none. */
static uint64_t set(void)
{
    return drawn(10) ? 255 - (drawn(3) ? 0 : drawn(8)) : drawn(258);
}

/* An object's number for a small one, all over the range; mostly the same for the same one, with its lowest bits. */
static uint64_t far_from(uint64_t small)
{
    static const uint64_t start[] = {0, 64, (uint64_t)1 << 32, UINT64_MAX - 63};
    return start[drawn(8) ? small % 4 : drawn(4)] + small;
}

/* The group of a subject of the struct, as gatekeeper_group shows it of bytes. */
static uint32_t group(const struct gatekeeper_monitor *m, int s)
{
    uint32_t first;
    for (first = 0; m->subjects[s].live != 0; first++)
        if (m->subjects[first].live != 0 && m->groups[first] == m->groups[s]) return 256 + first;
    return 0;
}

/* Whether two monitors are the same, but for the bytes between their fields, the numbers of free slots, and which byte a
 * group has. */
static int same(const struct gatekeeper_monitor *a, const struct gatekeeper_monitor *b)
{
    int i;
    for (i = 0; i < GATEKEEPER_OBJECTS; i++)
        if (a->objects[i].kind != 0 && a->numbers[i] != b->numbers[i]) return 0;
    for (i = 0; i < GATEKEEPER_SUBJECTS; i++)
        if (group(a, i) != group(b, i)) return 0;
    return memcmp(a->subjects, b->subjects, sizeof a->subjects) == 0 && memcmp(a->objects, b->objects, sizeof a->objects) == 0 &&
           memcmp(a->handles, b->handles, sizeof a->handles) == 0 && a->freeze == b->freeze &&
           memcmp(a->needs, b->needs, sizeof a->needs) == 0 && a->sure == b->sure && a->counts[0] == b->counts[0] &&
           a->counts[1] == b->counts[1];
}

/* A kept need of the struct, as it is shown of bytes. */
static uint32_t shown(uint16_t need)
{
    return 65536u * (need % 256u) + need / 256u;
}

/* Whether the bytes show what stands in the struct: the objects with their numbers and needs, the handles, and the groups. */
static int shows(const uint8_t *state, const struct gatekeeper_monitor *m)
{
    const size_t len = GATEKEEPER_STATE_BYTES;
    uint64_t from = 0, s, p;
    int i, used = 0;
    for (i = 0; i < GATEKEEPER_OBJECTS; i++) {
        if (m->objects[i].kind == 0) continue;
        used++;
        if (gatekeeper_object(state, len, m->numbers[i]) != 65536u * m->objects[i].shops + 256u * m->objects[i].kind + m->objects[i].level) return 0;
        if (gatekeeper_object_need(state, len, m->numbers[i]) != shown(m->needs[GATEKEEPER_SUBJECTS + i])) return 0;
    }
    do {
        uint64_t o = gatekeeper_object_from(state, len, from);
        if (o < from || gatekeeper_object(state, len, o) == 0) break;
        used--;
        from = o + 1;
    } while (from != 0);
    for (s = 0; s < GATEKEEPER_SUBJECTS; s++) {
        if (gatekeeper_group(state, len, s) != group(m, (int)s)) return 0;
        for (p = 0; p < GATEKEEPER_PLACES; p++) {
            uint8_t way = m->handles[16 * s + p].way, slot = m->handles[16 * s + p].slot, mark = m->handles[16 * s + p].mark;
            if (gatekeeper_handle(state, len, s, p) != (way ? 256u * way + 65536u * mark : 0)) return 0;
            if (gatekeeper_handle_object(state, len, s, p) != (way ? m->numbers[slot] : 0)) return 0;
        }
    }
    return used == 0;
}

/* What the call in place returns on a copy of the monitor; 0 where it is not that simple, or the code is another. */
static uint32_t in_place(const struct gatekeeper_monitor *monitor, uint64_t code, uint64_t a, uint64_t b, uint64_t c)
{
    struct gatekeeper_monitor m = *monitor;
    if (code == GATEKEEPER_OPEN_READ || code == GATEKEEPER_OPEN_WRITE)
        return gatekeeper_quick_open(m.numbers, 64, (uint8_t *)m.subjects, sizeof m.subjects, (uint8_t *)m.objects,
                                     sizeof m.objects, (uint8_t *)m.handles, sizeof m.handles, m.needs, 96,
                                     m.counts, 2, m.freeze, m.sure, code, a, b, c);
    if (code == GATEKEEPER_CLOSE)
        return gatekeeper_quick_close((uint8_t *)m.subjects, sizeof m.subjects, (uint8_t *)m.objects, sizeof m.objects,
                                      (uint8_t *)m.handles, sizeof m.handles, m.needs, 96, m.counts, 2, m.freeze,
                                      m.sure, a, b);
    return 0;
}

int main(void)
{
    static struct gatekeeper_monitor stepped, called;
    static uint8_t state[GATEKEEPER_STATE_BYTES];
    unsigned long calls = 0, quick = 0, allowed = 0, full = 0, threads = 0, lost = 0;
    int list, i, k;
    for (list = 0; list < LISTS; list++) {
        gatekeeper_monitor_empty(&stepped);
        gatekeeper_monitor_empty(&called);
        if (!gatekeeper_empty(state, sizeof state)) return 1;
        for (i = 0; i < CALLS; i++) {
            /* opens and closes more often than the rest, and small numbers, which meet more often */
            static const uint32_t often[] = {GATEKEEPER_OPEN_READ, GATEKEEPER_OPEN_WRITE, GATEKEEPER_CLOSE};
            uint64_t code = drawn(2) ? often[drawn(3)] : drawn(20), n[6];
            uint32_t few = drawn(4) ? 6 : 40, x, y, z, done;
            for (k = 0; k < 6; k++) n[k] = drawn(few);
            if (list % 3 == 0 && i < 64) {
                code = GATEKEEPER_REGISTER;
                n[0] = far_from((uint64_t)i), n[1] = (uint64_t)i % 16, n[2] = set();
            } else if (code == GATEKEEPER_REGISTER || code == GATEKEEPER_RETIRE) {
                n[0] = far_from(n[0]), n[2] = set();
            } else if (code == GATEKEEPER_ADMIT) {
                n[2] = set();
            } else if (code == GATEKEEPER_CONNECT) {
                n[2] = far_from(n[2]), n[3] = far_from(n[3]);
            } else if ((code >= GATEKEEPER_CREATE && code <= GATEKEEPER_OPEN_WRITE) || code == GATEKEEPER_EXEC || code == GATEKEEPER_MAP) {
                n[1] = far_from(n[1]);
            }
            if (drawn(100) == 0) n[drawn(6)] |= (uint64_t)1 << (32 + drawn(32)); /* what has a range is then outside it */
            done = in_place(&stepped, code, n[0], n[1], n[2]);
            x = gatekeeper_monitor_step(&stepped, code, n[0], n[1], n[2], n[3], n[4], n[5]);
            y = gatekeeper_monitor_call(&called, code, n[0], n[1], n[2], n[3], n[4], n[5]);
            z = gatekeeper_call(state, sizeof state, code, n[0], n[1], n[2], n[3], n[4], n[5]);
            if (x != y || x != z || (done != 0 && done != x) || stepped.sure != 1 || called.sure != 1) {
                printf("call %" PRIu64, code);
                for (k = 0; k < 6; k++) printf(" %" PRIu64, n[k]);
                printf(": %u by step, %u by call, %u on bytes, %u in place\n", x, y, z, done);
                return 1;
            }
            calls++;
            quick += done != 0;
            allowed += done != 0 && gatekeeper_allows(done);
            full += !gatekeeper_allows(x) && gatekeeper_value(x) == GATEKEEPER_TOO_MANY_OBJECTS;
            threads += code == GATEKEEPER_THREAD && gatekeeper_allows(x);
            lost += gatekeeper_lost(x) > 0;
            for (k = 0; k < 32 && gatekeeper_allows(x); k++)
                if (gatekeeper_group(state, sizeof state, (uint64_t)k) != group(&stepped, k)) {
                    printf("subject %d is in another group on bytes\n", k);
                    return 1;
                } else if (gatekeeper_subject_need(state, sizeof state, (uint64_t)k) != (stepped.subjects[k].live ? shown(stepped.needs[k]) : 0u)) {
                    printf("the need of subject %d is kept differently\n", k);
                    return 1;
                }
        }
        /* the free part of the two may differ: what an allowed call leaves beside a free number or an empty place */
        if (gatekeeper_monitor_assure(&stepped) != 1 || gatekeeper_monitor_assure(&called) != 1) {
            printf("a monitor that calls made is not sure\n");
            return 1;
        }
        if (list % 3 == 0 && !shows(state, &stepped)) {
            printf("after list %d the bytes show something else\n", list);
            return 1;
        }
        if (!same(&stepped, &called)) {
            printf("after list %d the two monitors differ\n", list);
            return 1;
        }
    }
    printf("%lu calls were answered alike by step, by call and on bytes; %lu of them in place, %lu of these allowed; %lu were refused with 17; "
           "%lu threads were made; at %lu shop marks were lost\n",
           calls, quick, allowed, full, threads, lost);
    return quick > calls / 10 && allowed > calls / 50 && full > 100 && threads > 100 && lost > 100 ? 0 : 1;
}
