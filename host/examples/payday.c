/*
 * A small host in C: it keeps a monitor, asks it before each step of a pay run, and keeps a journal of what it asked.
 * host/rust/examples/payday.rs is the same host in Rust, and host/examples/payday.txt is what both print.
 *
 *   cc host/examples/payday.c -I host target/staticlib/libhost.a -o payday && ./payday
 */
#include <inttypes.h>
#include <stdio.h>
#include <stdlib.h>

#include "gatekeeper.h"

/* What comes from outside, and the numbers that this host gives to it and to what it makes: subjects, files, pipes. */
enum { SHELL = 0, ADDER = 1, LISTER = 2, LAUNCHER = 3, IMPORTER = 4, TERMINAL = 5, STATION = 6, PAYSLIPS = 7 };
enum { TAX = 8, TAX_THREAD = 9, BONUS = 10 };
enum { PAY_BOOK = 0, SHEET = 1, HOURS = 2, LIST = 3, VIEWER = 4, SALES = 5, BONUS_0 = 6, BONUS_2 = 7 };
enum { PIPE = 8, SLIPS = 9, REPORTS = 10 }; /* from the adder to the shell; to the print station, and back */
#define RECEIPT UINT64_MAX                  /* a number of the file store */
#define ALL GATEKEEPER_ALL_SHOPS

struct host {
    uint8_t monitor[GATEKEEPER_STATE_BYTES];
    uint8_t journal[100 * GATEKEEPER_RECORD_ROOM]; /* room for 100 calls */
    size_t written;
};

/* The numbers of a call, and 0 for each that it does not use. */
#define WITH(...) ((const uint64_t[6]){__VA_ARGS__})

/* Makes a call, adds its record to the journal, and says what came of it; whether it may be done. */
static bool ask(struct host *host, const char *what, uint64_t code, const uint64_t n[6])
{
    uint8_t *end = host->journal + host->written;
    size_t room = sizeof host->journal - host->written;
    uint32_t record = gatekeeper_record(end, room, code, n[0], n[1], n[2], n[3], n[4], n[5]);
    if (record > 256)
        host->written += record - 256;

    size_t len = sizeof host->monitor;
    uint32_t answer = gatekeeper_call(host->monitor, len, code, n[0], n[1], n[2], n[3], n[4], n[5]);
    uint32_t value = gatekeeper_value(answer);
    printf("%-66s ", what);
    if (!gatekeeper_allows(answer)) {
        printf("refused (%" PRIu32 "): %s\n", value, gatekeeper_refusal_text(value));
        return false;
    }
    if (gatekeeper_letter(answer) == GATEKEEPER_LOWERED)
        printf("lowered to level %" PRIu32 ", shop marks lost: %" PRIu32 "\n", value, gatekeeper_lost(answer));
    else
        printf("allowed, level %" PRIu32 "\n", value);
    return true;
}

/* The same for a call without which this host cannot go on. */
static void must(struct host *host, const char *what, uint64_t code, const uint64_t n[6])
{
    if (!ask(host, what, code, n)) {
        fflush(stdout);
        fputs("payday: a call that the pay run needs was refused\n", stderr);
        exit(EXIT_FAILURE);
    }
}

static const char *way_words(uint32_t way)
{
    switch (way) {
    case GATEKEEPER_WAY_READS: return "reads";
    case GATEKEEPER_WAY_WRITES: return "writes";
    default: return "maps";
    }
}

static const char *kind_words(uint32_t object)
{
    return gatekeeper_kind_of(object) == GATEKEEPER_KIND_PIPE ? "pipe" : "file";
}

/* A label: its level, and the shop groups that are vouched for. */
static void label(uint32_t thing)
{
    uint32_t shops = gatekeeper_shops_of(thing);
    printf("level %" PRIu32 ", %s", gatekeeper_level_of(thing),
           shops == 0 ? "no shops" : shops == GATEKEEPER_ALL_SHOPS ? "all shops" : "shops");
    for (unsigned group = 0; group < GATEKEEPER_SHOPS && shops != GATEKEEPER_ALL_SHOPS; group++)
        if (shops >> group & 1)
            printf(" %u", group);
}

/* What the duty screen shows of a step: its label, the lowest one that it may fall to while no handle goes, its
 * handles, and its mates, which share its memory. */
static void show(const struct host *host, uint64_t step)
{
    const uint8_t *monitor = host->monitor;
    size_t len = sizeof host->monitor;
    uint32_t seen = gatekeeper_subject(monitor, len, step);
    if (seen == 0)
        return;
    printf("The duty screen shows: step %" PRIu64 " has ", step);
    label(seen);
    printf(" and may fall to ");
    label(gatekeeper_subject_need(monitor, len, step));
    printf(".\n");
    for (uint64_t place = 0; place < GATEKEEPER_PLACES; place++) {
        uint32_t handle = gatekeeper_handle(monitor, len, step, place);
        if (handle == 0)
            continue;
        uint64_t object = gatekeeper_handle_object(monitor, len, step, place);
        printf("  Its place %" PRIu64 " %s %s %" PRIu64 "%s.\n", place, way_words(gatekeeper_way_of(handle)),
               kind_words(gatekeeper_object(monitor, len, object)), object,
               gatekeeper_is_marked(handle) ? ", until exec" : "");
    }
    uint32_t group = gatekeeper_group(monitor, len, step);
    for (uint64_t mate = 0; mate < GATEKEEPER_SUBJECTS; mate++)
        if (mate != step && gatekeeper_group(monitor, len, mate) == group)
            printf("  Step %" PRIu64 " is a thread of the same step.\n", mate);
}

/* What it lists: the files and pipes that are live, the lowest number first. */
static void list(const struct host *host)
{
    const uint8_t *monitor = host->monitor;
    size_t len = sizeof host->monitor;
    uint64_t from = 0;
    do {
        uint64_t o = gatekeeper_object_from(monitor, len, from);
        uint32_t seen = gatekeeper_object(monitor, len, o);
        if (o < from || seen == 0)
            break;
        printf("The duty screen lists: %s %" PRIu64 " has ", kind_words(seen), o);
        label(seen);
        printf(".\n");
        from = o + 1;
    } while (from != 0);
}

int main(void)
{
    static struct host host;
    static uint8_t reply[GATEKEEPER_REPLY_ROOM];
    if (gatekeeper_version() != GATEKEEPER_VERSION_NUMBER || !gatekeeper_empty(host.monitor, sizeof host.monitor))
        return 1;

    puts("What comes from outside");
    must(&host, "The pay book is file 0.", GATEKEEPER_REGISTER, WITH(PAY_BOOK, 9, ALL));
    must(&host, "The hours sheet of shop 3, which nobody has checked, is file 1.", GATEKEEPER_REGISTER,
         WITH(SHEET, 2, ALL));
    must(&host, "The checked hours of all other shops are file 2.", GATEKEEPER_REGISTER, WITH(HOURS, 12, ALL));
    must(&host, "The shell is step 0.", GATEKEEPER_ADMIT, WITH(SHELL, 12, ALL));

    puts("\nThe shell starts a step that adds up the hours");
    must(&host, "The shell makes pipe 8: place 0 reads it, place 1 writes it.", GATEKEEPER_PIPE,
         WITH(SHELL, PIPE, 0, 1));
    must(&host, "It forks the adder, step 1.", GATEKEEPER_FORK, WITH(SHELL, ADDER));
    must(&host, "The adder closes its reading end.", GATEKEEPER_CLOSE, WITH(ADDER, 0));
    must(&host, "The shell closes its writing end.", GATEKEEPER_CLOSE, WITH(SHELL, 1));
    must(&host, "The shell opens the pay book for writing.", GATEKEEPER_OPEN_WRITE, WITH(SHELL, PAY_BOOK, 2));
    must(&host, "The adder opens the checked hours for reading.", GATEKEEPER_OPEN_READ, WITH(ADDER, HOURS, 2));
    show(&host, ADDER);

    puts("\nThe adder asks for the unchecked sheet: through pipe 8 it would reach the pay book");
    if (!ask(&host, "The adder opens the sheet of shop 3 for reading.", GATEKEEPER_OPEN_READ, WITH(ADDER, SHEET, 3))) {
        puts("\nThe way out: a step with no way to the pay book reads it");
        must(&host, "The shell forks the lister, step 2.", GATEKEEPER_FORK, WITH(SHELL, LISTER));
        must(&host, "The lister closes its end of pipe 8.", GATEKEEPER_CLOSE, WITH(LISTER, 0));
        must(&host, "The lister closes the pay book.", GATEKEEPER_CLOSE, WITH(LISTER, 2));
        show(&host, LISTER);
        must(&host, "The lister opens the sheet of shop 3 for reading.", GATEKEEPER_OPEN_READ, WITH(LISTER, SHEET, 0));
        must(&host, "The lister reads it.", GATEKEEPER_READ, WITH(LISTER, 0));
        must(&host, "The lister creates file 3, a list for the clerk.", GATEKEEPER_CREATE, WITH(LISTER, LIST));
        must(&host, "The lister opens the list for writing.", GATEKEEPER_OPEN_WRITE, WITH(LISTER, LIST, 1));
        must(&host, "The lister writes it.", GATEKEEPER_WRITE, WITH(LISTER, 1));
        if (ask(&host, "The lister opens the pay book for writing.", GATEKEEPER_OPEN_WRITE, WITH(LISTER, PAY_BOOK, 2)))
            must(&host, "The lister writes it.", GATEKEEPER_WRITE, WITH(LISTER, 2));
        must(&host, "The lister exits.", GATEKEEPER_EXIT, WITH(LISTER));
    }

    puts("\nThe pay run goes on, and nobody has fallen");
    must(&host, "The adder reads the checked hours.", GATEKEEPER_READ, WITH(ADDER, 2));
    must(&host, "The adder writes the sums to pipe 8.", GATEKEEPER_WRITE, WITH(ADDER, 1));
    must(&host, "The adder exits.", GATEKEEPER_EXIT, WITH(ADDER));
    must(&host, "The shell reads the sums.", GATEKEEPER_READ, WITH(SHELL, 0));
    must(&host, "The shell writes the pay book.", GATEKEEPER_WRITE, WITH(SHELL, 2));

    puts("\nA launcher that has the pay book open runs a sheet viewer, which is not to get that handle");
    must(&host, "The sheet viewer, a program from elsewhere, is file 4.", GATEKEEPER_REGISTER, WITH(VIEWER, 2, ALL));
    must(&host, "The shell forks the launcher, step 3.", GATEKEEPER_FORK, WITH(SHELL, LAUNCHER));
    if (!ask(&host, "The launcher runs the viewer.", GATEKEEPER_EXEC, WITH(LAUNCHER, VIEWER))) {
        must(&host, "The launcher marks the pay book: that handle ends at exec.", GATEKEEPER_MARK, WITH(LAUNCHER, 2));
        show(&host, LAUNCHER);
        must(&host, "The launcher runs the viewer.", GATEKEEPER_EXEC, WITH(LAUNCHER, VIEWER));
    }
    must(&host, "The viewer exits.", GATEKEEPER_EXIT, WITH(LAUNCHER));

    puts("\nA spreadsheet importer maps the unchecked sheet, and falls at once: it never makes a call to read");
    must(&host, "The shell forks the importer, step 4.", GATEKEEPER_FORK, WITH(SHELL, IMPORTER));
    must(&host, "The importer closes the pay book.", GATEKEEPER_CLOSE, WITH(IMPORTER, 2));
    must(&host, "The importer maps the sheet of shop 3.", GATEKEEPER_MAP, WITH(IMPORTER, SHEET, 1));
    show(&host, IMPORTER);
    must(&host, "The terminal of shop 3 is step 5.", GATEKEEPER_ADMIT, WITH(TERMINAL, 2, ALL));
    must(&host, "The terminal opens the sheet for writing.", GATEKEEPER_OPEN_WRITE, WITH(TERMINAL, SHEET, 0));
    must(&host, "The terminal writes late hours: the importer sees them, too.", GATEKEEPER_WRITE, WITH(TERMINAL, 0));
    must(&host, "The terminal exits.", GATEKEEPER_EXIT, WITH(TERMINAL));
    must(&host, "The importer runs the viewer: the mapping ends.", GATEKEEPER_EXEC, WITH(IMPORTER, VIEWER));
    must(&host, "The viewer exits.", GATEKEEPER_EXIT, WITH(IMPORTER));

    puts("\nThe payslip step and the print station talk over a local socket: one pipe there and one back");
    must(&host, "The print station is step 6.", GATEKEEPER_ADMIT, WITH(STATION, 5, ALL));
    must(&host, "The shell forks the payslip step, step 7.", GATEKEEPER_FORK, WITH(SHELL, PAYSLIPS));
    const uint64_t *channel = WITH(PAYSLIPS, STATION, SLIPS, REPORTS, 3, 4); /* each reads at 3 and writes at 4 */
    if (!ask(&host, "The payslip step is connected to the station by pipes 9 and 10.", GATEKEEPER_CONNECT, channel)) {
        must(&host, "The payslip step closes the pay book.", GATEKEEPER_CLOSE, WITH(PAYSLIPS, 2));
        must(&host, "The payslip step is connected to the station by pipes 9 and 10.", GATEKEEPER_CONNECT, channel);
    }
    must(&host, "The payslip step writes a payslip.", GATEKEEPER_WRITE, WITH(PAYSLIPS, 4));
    must(&host, "The station reads it.", GATEKEEPER_READ, WITH(STATION, 3));
    must(&host, "The station writes that it is printed.", GATEKEEPER_WRITE, WITH(STATION, 4));
    must(&host, "The payslip step reads that.", GATEKEEPER_READ, WITH(PAYSLIPS, 3));
    must(&host, "The payslip step exits.", GATEKEEPER_EXIT, WITH(PAYSLIPS));
    must(&host, "The station exits.", GATEKEEPER_EXIT, WITH(STATION));

    puts("\nThe tax step runs as two threads, which share memory: what one of them reads, both have read");
    must(&host, "The tax step is step 8.", GATEKEEPER_ADMIT, WITH(TAX, 12, ALL));
    must(&host, "It starts a thread, step 9.", GATEKEEPER_THREAD, WITH(TAX, TAX_THREAD));
    must(&host, "The tax step opens the pay book for writing.", GATEKEEPER_OPEN_WRITE, WITH(TAX, PAY_BOOK, 0));
    if (!ask(&host, "Its thread opens the sheet of shop 3 for reading.", GATEKEEPER_OPEN_READ,
             WITH(TAX_THREAD, SHEET, 0))) {
        show(&host, TAX_THREAD);
        must(&host, "The tax step closes the pay book.", GATEKEEPER_CLOSE, WITH(TAX, 0));
        must(&host, "Its thread opens the sheet of shop 3 for reading.", GATEKEEPER_OPEN_READ,
             WITH(TAX_THREAD, SHEET, 0));
    }
    must(&host, "Its thread reads it: both fall.", GATEKEEPER_READ, WITH(TAX_THREAD, 0));
    show(&host, TAX);
    must(&host, "The tax step runs the viewer: its thread ends.", GATEKEEPER_EXEC, WITH(TAX, VIEWER));
    must(&host, "The viewer exits.", GATEKEEPER_EXIT, WITH(TAX));

    puts("\nA level does not say whose figures were looked over: for that there are the marks of eight shop groups");
    must(&host, "The sales of shop groups 0 and 1, looked over, are file 5.", GATEKEEPER_REGISTER,
         WITH(SALES, 12, 1 | 2));
    must(&host, "The bonus list of shop group 0 is file 6.", GATEKEEPER_REGISTER, WITH(BONUS_0, 9, 1));
    must(&host, "The bonus list of shop group 2 is file 7.", GATEKEEPER_REGISTER, WITH(BONUS_2, 9, 4));
    must(&host, "The bonus step is step 10.", GATEKEEPER_ADMIT, WITH(BONUS, 12, ALL));
    must(&host, "The bonus step opens the list of group 2 for writing.", GATEKEEPER_OPEN_WRITE,
         WITH(BONUS, BONUS_2, 0));
    if (!ask(&host, "The bonus step opens the sales for reading.", GATEKEEPER_OPEN_READ, WITH(BONUS, SALES, 1))) {
        must(&host, "The bonus step closes the list of group 2.", GATEKEEPER_CLOSE, WITH(BONUS, 0));
        must(&host, "The bonus step opens the list of group 0 for writing.", GATEKEEPER_OPEN_WRITE,
             WITH(BONUS, BONUS_0, 0));
        must(&host, "The bonus step opens the sales for reading.", GATEKEEPER_OPEN_READ, WITH(BONUS, SALES, 1));
    }
    must(&host, "The bonus step reads the sales: its level stays.", GATEKEEPER_READ, WITH(BONUS, 1));
    show(&host, BONUS);
    must(&host, "The bonus step writes the list of group 0.", GATEKEEPER_WRITE, WITH(BONUS, 0));
    must(&host, "The bonus step exits.", GATEKEEPER_EXIT, WITH(BONUS));

    puts("\nThe books are closed until the bank file is sent; who has the pay book open goes on");
    must(&host, "Files of level 9 and above are frozen.", GATEKEEPER_FREEZE, WITH(9));
    uint32_t from = gatekeeper_frozen_from(host.monitor, sizeof host.monitor);
    if (from < GATEKEEPER_NO_FREEZE)
        printf("The duty screen shows: frozen from level %" PRIu32 " on.\n", from);
    if (ask(&host, "The shell opens the pay book for writing again.", GATEKEEPER_OPEN_WRITE, WITH(SHELL, PAY_BOOK, 3)))
        must(&host, "The shell closes it.", GATEKEEPER_CLOSE, WITH(SHELL, 3));
    must(&host, "The shell writes the last page with the handle that it has.", GATEKEEPER_WRITE, WITH(SHELL, 2));
    must(&host, "The bank file is sent: the freeze is lifted.", GATEKEEPER_FREEZE, WITH(GATEKEEPER_NO_FREEZE));
    must(&host, "The shell exits.", GATEKEEPER_EXIT, WITH(SHELL));

    puts("\nA clerk has looked over the sheet: it comes in again as checked");
    must(&host, "The sheet of shop 3 is retired.", GATEKEEPER_RETIRE, WITH(SHEET));
    must(&host, "The checked sheet is file 1.", GATEKEEPER_REGISTER, WITH(SHEET, 12, ALL));

    puts("\nThe file store gives numbers of its own");
    must(&host, "The bank's receipt is file 18446744073709551615.", GATEKEEPER_REGISTER, WITH(RECEIPT, 12, ALL));
    list(&host);

    uint64_t made = gatekeeper_made(host.monitor, sizeof host.monitor);
    uint64_t gone = gatekeeper_gone(host.monitor, sizeof host.monitor);
    printf("\nHandles made: %" PRIu64 ", gone: %" PRIu64 ", open: %" PRIu64 ".\n", made, gone, made - gone);

    size_t end = gatekeeper_replay(host.journal, host.written, reply, sizeof reply);
    size_t last = end; /* where the reply's last line starts */
    while (last > 0 && (last == end || reply[last - 1] != '\n'))
        last--;
    printf("The journal has %zu bytes. The last line of the reply to it: ", host.written);
    return fwrite(reply + last, 1, end - last, stdout) == end - last && fflush(stdout) == 0 ? 0 : 1;
}
