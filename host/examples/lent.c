/*
 * A small host in C that keeps its monitor as a struct, for speed: it asks before each step of a pay run, reads what it
 * shows from the fields, and asks what would be on a copy. host/examples/lent.txt is what it prints; payday.c, beside
 * this one, keeps a monitor as bytes.
 *
 *   cc host/examples/lent.c -I host target/staticlib/libhost.a -o lent && ./lent
 */
#include <inttypes.h>
#include <stdio.h>
#include <stdlib.h>

#include "gatekeeper.h"

/* The numbers that this host gives: subjects, files, pipes. */
enum { SHELL = 0, ADDER = 1, TAX = 2, TAX_THREAD = 3 };
enum { PAY_BOOK = 0, SHEET = 1, PIPE = 8 };
#define RECEIPT UINT64_MAX /* a number of the file store */
#define ALL GATEKEEPER_ALL_SHOPS

/* The numbers of a call, and 0 for each that it does not use. */
#define WITH(...) ((const uint64_t[6]){__VA_ARGS__})

/* Makes a call, and says what came of it; whether it may be done. */
static bool ask(struct gatekeeper_monitor *monitor, const char *what, uint64_t code, const uint64_t n[6])
{
    uint32_t answer = gatekeeper_monitor_step(monitor, code, n[0], n[1], n[2], n[3], n[4], n[5]);
    uint32_t value = gatekeeper_value(answer);
    printf("%-66s ", what);
    if (!gatekeeper_allows(answer)) {
        printf("refused (%" PRIu32 "): %s\n", value, gatekeeper_refusal_text(value));
        return false;
    }
    if (gatekeeper_letter(answer) == GATEKEEPER_LOWERED)
        printf("lowered to level %" PRIu32 ", shop marks lost: %" PRIu32 "\n", value, gatekeeper_lost(answer));
    else
        printf("allowed, level %" PRIu32 "\n", value);
    return true;
}

/* The same for a call without which this host cannot go on. */
static void must(struct gatekeeper_monitor *monitor, const char *what, uint64_t code, const uint64_t n[6])
{
    if (!ask(monitor, what, code, n)) {
        fflush(stdout);
        fputs("lent: a call that the pay run needs was refused\n", stderr);
        exit(EXIT_FAILURE);
    }
}

/* What the duty screen shows, from the fields: each step's level and set of shop marks, those of its kept need, and how
 * many handles it has. */
static void show(const struct gatekeeper_monitor *monitor)
{
    for (unsigned step = 0; step < GATEKEEPER_SUBJECTS; step++) {
        unsigned handles = 0;
        if (monitor->subjects[step].live == 0)
            continue;
        for (unsigned place = 0; place < GATEKEEPER_PLACES; place++)
            handles += monitor->handles[GATEKEEPER_PLACES * step + place].way != 0;
        printf("The duty screen shows: step %u is at %u, set %u, and may fall to %u, set %u; handles: %u.\n", step,
               monitor->subjects[step].level, monitor->subjects[step].shops, monitor->needs[step] / 256,
               monitor->needs[step] % 256, handles);
    }
}

/* Who is in one group: live steps whose bytes are equal. */
static void share(const struct gatekeeper_monitor *monitor)
{
    for (unsigned one = 0; one < GATEKEEPER_SUBJECTS; one++)
        for (unsigned other = one + 1; other < GATEKEEPER_SUBJECTS; other++)
            if (monitor->subjects[one].live != 0 && monitor->subjects[other].live != 0 &&
                monitor->groups[one] == monitor->groups[other])
                printf("The duty screen shows: steps %u and %u are threads of one step.\n", one, other);
}

/* The objects of a step's handles: each handle has the slot in which its object stands, with its number beside it. */
static void list(const struct gatekeeper_monitor *monitor, unsigned step)
{
    for (unsigned place = 0; place < GATEKEEPER_PLACES; place++) {
        unsigned at = GATEKEEPER_PLACES * step + place, slot = monitor->handles[at].slot;
        if (monitor->handles[at].way != 0)
            printf("The duty screen lists: place %u of step %u is on %s %" PRIu64 ", level %u, set %u.\n", place, step,
                   monitor->objects[slot].kind == GATEKEEPER_KIND_PIPE ? "pipe" : "file", monitor->numbers[slot],
                   monitor->objects[slot].level, monitor->objects[slot].shops);
    }
}

int main(void)
{
    struct gatekeeper_monitor monitor;
    if (gatekeeper_version() != GATEKEEPER_VERSION_NUMBER)
        return 1;
    gatekeeper_monitor_empty(&monitor);

    must(&monitor, "The pay book is file 0.", GATEKEEPER_REGISTER, WITH(PAY_BOOK, 9, ALL));
    must(&monitor, "The hours sheet of shop 3, which nobody has checked, is file 1.", GATEKEEPER_REGISTER,
         WITH(SHEET, 2, 1));
    must(&monitor, "The shell is step 0.", GATEKEEPER_ADMIT, WITH(SHELL, 12, ALL));
    must(&monitor, "The shell makes pipe 8: place 0 reads it, place 1 writes it.", GATEKEEPER_PIPE,
         WITH(SHELL, PIPE, 0, 1));
    must(&monitor, "It forks the adder, step 1.", GATEKEEPER_FORK, WITH(SHELL, ADDER));
    must(&monitor, "The adder closes its reading end.", GATEKEEPER_CLOSE, WITH(ADDER, 0));
    must(&monitor, "The shell closes its writing end.", GATEKEEPER_CLOSE, WITH(SHELL, 1));
    must(&monitor, "The shell opens the pay book for writing.", GATEKEEPER_OPEN_WRITE, WITH(SHELL, PAY_BOOK, 2));
    show(&monitor);

    if (!ask(&monitor, "The adder opens the sheet for reading.", GATEKEEPER_OPEN_READ, WITH(ADDER, SHEET, 3))) {
        puts("\nOn a copy, which is a monitor of its own: what if the shell closed the pay book?");
        struct gatekeeper_monitor copy = monitor;
        must(&copy, "The shell closes the pay book.", GATEKEEPER_CLOSE, WITH(SHELL, 2));
        if (ask(&copy, "The adder opens the sheet for reading.", GATEKEEPER_OPEN_READ, WITH(ADDER, SHEET, 3)))
            must(&copy, "The adder reads it.", GATEKEEPER_READ, WITH(ADDER, 3));
        show(&copy);
        puts("\nThe monitor itself is as it was");
        show(&monitor);
    }

    puts("\nThe file store gives numbers of its own");
    must(&monitor, "The bank's receipt is file 18446744073709551615.", GATEKEEPER_REGISTER, WITH(RECEIPT, 12, ALL));
    must(&monitor, "The shell opens the receipt for reading.", GATEKEEPER_OPEN_READ, WITH(SHELL, RECEIPT, 3));
    list(&monitor, SHELL);

    puts("\nThe tax step runs as two threads, which share memory");
    must(&monitor, "The tax step is step 2.", GATEKEEPER_ADMIT, WITH(TAX, 12, ALL));
    must(&monitor, "It starts a thread, step 3.", GATEKEEPER_THREAD, WITH(TAX, TAX_THREAD));
    share(&monitor);
    must(&monitor, "The thread maps the sheet: both fall.", GATEKEEPER_MAP, WITH(TAX_THREAD, SHEET, 0));
    show(&monitor);
    must(&monitor, "The tax step exits, and its thread goes on.", GATEKEEPER_EXIT, WITH(TAX));
    must(&monitor, "The thread exits.", GATEKEEPER_EXIT, WITH(TAX_THREAD));
    uint64_t made = monitor.counts[GATEKEEPER_MADE], gone = monitor.counts[GATEKEEPER_GONE];
    printf("\nHandles made: %" PRIu64 ", gone: %" PRIu64 ", open: %" PRIu64 ".\n", made, gone, made - gone);
    return fflush(stdout) == 0 ? 0 : 1;
}
