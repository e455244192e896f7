//! A small host in Rust: it keeps a monitor, asks it before each step of a pay run, and keeps a journal of what it
//! asked. `host/examples/payday.c` is the same host in C, and `host/examples/payday.txt` is what both print.
//!
//! In `host/rust`: `cargo run --offline --example payday`

use gatekeeper::{Answer, Call, Handle, Kind, Label, Monitor, Way};
use gatekeeper::{ALL_SHOPS, NO_FREEZE, PLACES, SUBJECTS};

// What comes from outside, and the numbers that this host gives to it and to what it makes.
const SHELL: u64 = 0;
const ADDER: u64 = 1;
const LISTER: u64 = 2;
const LAUNCHER: u64 = 3;
const IMPORTER: u64 = 4;
const TERMINAL: u64 = 5;
const STATION: u64 = 6;
const PAYSLIPS: u64 = 7;
const TAX: u64 = 8;
const TAX_THREAD: u64 = 9;
const BONUS: u64 = 10;
const PAY_BOOK: u64 = 0;
const SHEET: u64 = 1;
const HOURS: u64 = 2;
const LIST: u64 = 3;
const VIEWER: u64 = 4;
const SALES: u64 = 5;
const BONUS_0: u64 = 6;
const BONUS_2: u64 = 7;
/// From the adder to the shell.
const PIPE: u64 = 8;
/// To the print station, and back.
const SLIPS: u64 = 9;
const REPORTS: u64 = 10;
/// A number of the file store.
const RECEIPT: u64 = u64::MAX;

#[derive(Default)]
struct Host {
    monitor: Monitor,
    journal: Vec<u8>,
}

impl Host {
    /// Makes a call, adds its record to the journal, and says what came of it; whether it may be done.
    #[must_use]
    fn ask(&mut self, what: &str, call: Call) -> bool {
        call.write_record(&mut self.journal);
        print!("{what:66} ");
        match self.monitor.call(call) {
            Answer::Allowed(level) => println!("allowed, level {level}"),
            Answer::Lowered { level, lost } => {
                println!("lowered to level {level}, shop marks lost: {lost}")
            }
            Answer::Refused(refusal) => {
                println!("refused ({}): {}", refusal.number(), refusal.words());
                return false;
            }
        }
        true
    }

    /// The same for a call without which this host cannot go on.
    fn must(&mut self, what: &str, call: Call) {
        if !self.ask(what, call) {
            eprintln!("payday: a call that the pay run needs was refused");
            std::process::exit(1);
        }
    }

    /// What the duty screen shows of a step: its label, the lowest one that it may fall to while no handle goes, its
    /// handles, and its mates, which share its memory.
    fn show(&self, step: u64) {
        let monitor = &self.monitor;
        let Some((label, need)) = monitor.subject(step).zip(monitor.need_of_subject(step)) else {
            return;
        };
        println!("The duty screen shows: step {step} has {label} and may fall to {need}.");
        for place in 0..PLACES {
            let Some(Handle { way, object, marked }) = monitor.handle(step, place) else {
                continue;
            };
            let way = match way {
                Way::Reads => "reads",
                Way::Writes => "writes",
                Way::Maps => "maps",
            };
            let kind = monitor.object(object).map_or("nothing", |object| words(object.kind));
            println!(
                "  Its place {place} {way} {kind} {object}{}.",
                if marked { ", until exec" } else { "" }
            );
        }
        let is_mate = |&mate: &u64| mate != step && monitor.group(mate) == monitor.group(step);
        for mate in (0..SUBJECTS).filter(is_mate) {
            println!("  Step {mate} is a thread of the same step.");
        }
    }
}

fn words(kind: Kind) -> &'static str {
    match kind {
        Kind::File => "file",
        Kind::Pipe => "pipe",
    }
}

fn main() {
    let mut host = Host::default();

    println!("What comes from outside");
    host.must("The pay book is file 0.", Call::Register { object: PAY_BOOK, level: 9, shops: ALL_SHOPS });
    host.must(
        "The hours sheet of shop 3, which nobody has checked, is file 1.",
        Call::Register { object: SHEET, level: 2, shops: ALL_SHOPS },
    );
    host.must(
        "The checked hours of all other shops are file 2.",
        Call::Register { object: HOURS, level: 12, shops: ALL_SHOPS },
    );
    host.must("The shell is step 0.", Call::Admit { subject: SHELL, level: 12, shops: ALL_SHOPS });

    println!("\nThe shell starts a step that adds up the hours");
    host.must(
        "The shell makes pipe 8: place 0 reads it, place 1 writes it.",
        Call::Pipe { subject: SHELL, object: PIPE, reads: 0, writes: 1 },
    );
    host.must("It forks the adder, step 1.", Call::Fork { subject: SHELL, child: ADDER });
    host.must("The adder closes its reading end.", Call::Close { subject: ADDER, place: 0 });
    host.must("The shell closes its writing end.", Call::Close { subject: SHELL, place: 1 });
    host.must(
        "The shell opens the pay book for writing.",
        Call::OpenWrite { subject: SHELL, object: PAY_BOOK, place: 2 },
    );
    host.must(
        "The adder opens the checked hours for reading.",
        Call::OpenRead { subject: ADDER, object: HOURS, place: 2 },
    );
    host.show(ADDER);

    println!("\nThe adder asks for the unchecked sheet: through pipe 8 it would reach the pay book");
    if !host.ask(
        "The adder opens the sheet of shop 3 for reading.",
        Call::OpenRead { subject: ADDER, object: SHEET, place: 3 },
    ) {
        println!("\nThe way out: a step with no way to the pay book reads it");
        host.must("The shell forks the lister, step 2.", Call::Fork { subject: SHELL, child: LISTER });
        host.must("The lister closes its end of pipe 8.", Call::Close { subject: LISTER, place: 0 });
        host.must("The lister closes the pay book.", Call::Close { subject: LISTER, place: 2 });
        host.show(LISTER);
        host.must(
            "The lister opens the sheet of shop 3 for reading.",
            Call::OpenRead { subject: LISTER, object: SHEET, place: 0 },
        );
        host.must("The lister reads it.", Call::Read { subject: LISTER, place: 0 });
        host.must(
            "The lister creates file 3, a list for the clerk.",
            Call::Create { subject: LISTER, object: LIST },
        );
        host.must(
            "The lister opens the list for writing.",
            Call::OpenWrite { subject: LISTER, object: LIST, place: 1 },
        );
        host.must("The lister writes it.", Call::Write { subject: LISTER, place: 1 });
        if host.ask(
            "The lister opens the pay book for writing.",
            Call::OpenWrite { subject: LISTER, object: PAY_BOOK, place: 2 },
        ) {
            host.must("The lister writes it.", Call::Write { subject: LISTER, place: 2 });
        }
        host.must("The lister exits.", Call::Exit { subject: LISTER });
    }

    println!("\nThe pay run goes on, and nobody has fallen");
    host.must("The adder reads the checked hours.", Call::Read { subject: ADDER, place: 2 });
    host.must("The adder writes the sums to pipe 8.", Call::Write { subject: ADDER, place: 1 });
    host.must("The adder exits.", Call::Exit { subject: ADDER });
    host.must("The shell reads the sums.", Call::Read { subject: SHELL, place: 0 });
    host.must("The shell writes the pay book.", Call::Write { subject: SHELL, place: 2 });

    println!(
        "\nA launcher that has the pay book open runs a sheet viewer, which is not to get that handle"
    );
    host.must(
        "The sheet viewer, a program from elsewhere, is file 4.",
        Call::Register { object: VIEWER, level: 2, shops: ALL_SHOPS },
    );
    host.must("The shell forks the launcher, step 3.", Call::Fork { subject: SHELL, child: LAUNCHER });
    if !host.ask("The launcher runs the viewer.", Call::Exec { subject: LAUNCHER, object: VIEWER }) {
        host.must(
            "The launcher marks the pay book: that handle ends at exec.",
            Call::Mark { subject: LAUNCHER, place: 2 },
        );
        host.show(LAUNCHER);
        host.must("The launcher runs the viewer.", Call::Exec { subject: LAUNCHER, object: VIEWER });
    }
    host.must("The viewer exits.", Call::Exit { subject: LAUNCHER });

    println!(
        "\nA spreadsheet importer maps the unchecked sheet, and falls at once: it never makes a call to read"
    );
    host.must("The shell forks the importer, step 4.", Call::Fork { subject: SHELL, child: IMPORTER });
    host.must("The importer closes the pay book.", Call::Close { subject: IMPORTER, place: 2 });
    host.must(
        "The importer maps the sheet of shop 3.",
        Call::Map { subject: IMPORTER, object: SHEET, place: 1 },
    );
    host.show(IMPORTER);
    host.must(
        "The terminal of shop 3 is step 5.",
        Call::Admit { subject: TERMINAL, level: 2, shops: ALL_SHOPS },
    );
    host.must(
        "The terminal opens the sheet for writing.",
        Call::OpenWrite { subject: TERMINAL, object: SHEET, place: 0 },
    );
    host.must(
        "The terminal writes late hours: the importer sees them, too.",
        Call::Write { subject: TERMINAL, place: 0 },
    );
    host.must("The terminal exits.", Call::Exit { subject: TERMINAL });
    host.must(
        "The importer runs the viewer: the mapping ends.",
        Call::Exec { subject: IMPORTER, object: VIEWER },
    );
    host.must("The viewer exits.", Call::Exit { subject: IMPORTER });

    println!(
        "\nThe payslip step and the print station talk over a local socket: one pipe there and one back"
    );
    host.must("The print station is step 6.", Call::Admit { subject: STATION, level: 5, shops: ALL_SHOPS });
    host.must("The shell forks the payslip step, step 7.", Call::Fork { subject: SHELL, child: PAYSLIPS });
    let channel = Call::Connect {
        subject: PAYSLIPS,
        peer: STATION,
        to: SLIPS,
        from: REPORTS,
        reading: 3,
        writing: 4,
    };
    if !host.ask("The payslip step is connected to the station by pipes 9 and 10.", channel) {
        host.must("The payslip step closes the pay book.", Call::Close { subject: PAYSLIPS, place: 2 });
        host.must("The payslip step is connected to the station by pipes 9 and 10.", channel);
    }
    host.must("The payslip step writes a payslip.", Call::Write { subject: PAYSLIPS, place: 4 });
    host.must("The station reads it.", Call::Read { subject: STATION, place: 3 });
    host.must("The station writes that it is printed.", Call::Write { subject: STATION, place: 4 });
    host.must("The payslip step reads that.", Call::Read { subject: PAYSLIPS, place: 3 });
    host.must("The payslip step exits.", Call::Exit { subject: PAYSLIPS });
    host.must("The station exits.", Call::Exit { subject: STATION });

    println!(
        "\nThe tax step runs as two threads, which share memory: what one of them reads, both have read"
    );
    host.must("The tax step is step 8.", Call::Admit { subject: TAX, level: 12, shops: ALL_SHOPS });
    host.must("It starts a thread, step 9.", Call::Thread { subject: TAX, member: TAX_THREAD });
    host.must(
        "The tax step opens the pay book for writing.",
        Call::OpenWrite { subject: TAX, object: PAY_BOOK, place: 0 },
    );
    let open = Call::OpenRead { subject: TAX_THREAD, object: SHEET, place: 0 };
    if !host.ask("Its thread opens the sheet of shop 3 for reading.", open) {
        host.show(TAX_THREAD);
        host.must("The tax step closes the pay book.", Call::Close { subject: TAX, place: 0 });
        host.must("Its thread opens the sheet of shop 3 for reading.", open);
    }
    host.must("Its thread reads it: both fall.", Call::Read { subject: TAX_THREAD, place: 0 });
    host.show(TAX);
    host.must(
        "The tax step runs the viewer: its thread ends.",
        Call::Exec { subject: TAX, object: VIEWER },
    );
    host.must("The viewer exits.", Call::Exit { subject: TAX });

    println!(
        "\nA level does not say whose figures were looked over: for that there are the marks of eight shop groups"
    );
    host.must(
        "The sales of shop groups 0 and 1, looked over, are file 5.",
        Call::register(SALES, Label { level: 12, shops: 1 | 2 }),
    );
    host.must(
        "The bonus list of shop group 0 is file 6.",
        Call::register(BONUS_0, Label { level: 9, shops: 1 }),
    );
    host.must(
        "The bonus list of shop group 2 is file 7.",
        Call::register(BONUS_2, Label { level: 9, shops: 4 }),
    );
    host.must("The bonus step is step 10.", Call::Admit { subject: BONUS, level: 12, shops: ALL_SHOPS });
    host.must(
        "The bonus step opens the list of group 2 for writing.",
        Call::OpenWrite { subject: BONUS, object: BONUS_2, place: 0 },
    );
    let open = Call::OpenRead { subject: BONUS, object: SALES, place: 1 };
    if !host.ask("The bonus step opens the sales for reading.", open) {
        host.must("The bonus step closes the list of group 2.", Call::Close { subject: BONUS, place: 0 });
        host.must(
            "The bonus step opens the list of group 0 for writing.",
            Call::OpenWrite { subject: BONUS, object: BONUS_0, place: 0 },
        );
        host.must("The bonus step opens the sales for reading.", open);
    }
    host.must("The bonus step reads the sales: its level stays.", Call::Read { subject: BONUS, place: 1 });
    host.show(BONUS);
    host.must("The bonus step writes the list of group 0.", Call::Write { subject: BONUS, place: 0 });
    host.must("The bonus step exits.", Call::Exit { subject: BONUS });

    println!("\nThe books are closed until the bank file is sent; who has the pay book open goes on");
    host.must("Files of level 9 and above are frozen.", Call::Freeze { level: 9 });
    if let Some(level) = host.monitor.frozen_from() {
        println!("The duty screen shows: frozen from level {level} on.");
    }
    if host.ask(
        "The shell opens the pay book for writing again.",
        Call::OpenWrite { subject: SHELL, object: PAY_BOOK, place: 3 },
    ) {
        host.must("The shell closes it.", Call::Close { subject: SHELL, place: 3 });
    }
    host.must(
        "The shell writes the last page with the handle that it has.",
        Call::Write { subject: SHELL, place: 2 },
    );
    host.must("The bank file is sent: the freeze is lifted.", Call::Freeze { level: NO_FREEZE });
    host.must("The shell exits.", Call::Exit { subject: SHELL });

    println!("\nA clerk has looked over the sheet: it comes in again as checked");
    host.must("The sheet of shop 3 is retired.", Call::Retire { object: SHEET });
    host.must(
        "The checked sheet is file 1.",
        Call::Register { object: SHEET, level: 12, shops: ALL_SHOPS },
    );

    println!("\nThe file store gives numbers of its own");
    host.must(
        "The bank's receipt is file 18446744073709551615.",
        Call::Register { object: RECEIPT, level: 12, shops: ALL_SHOPS },
    );
    for (number, object) in host.monitor.objects() {
        println!("The duty screen lists: {} {number} has {}.", words(object.kind), object.label);
    }

    let Host { monitor, journal } = host;
    println!("\nHandles made: {}, gone: {}, open: {}.", monitor.made(), monitor.gone(), monitor.open());
    let reply = gatekeeper::replay(&journal);
    let last = reply.lines().last().unwrap_or_default();
    println!("The journal has {} bytes. The last line of the reply to it: {last}", journal.len());
}
