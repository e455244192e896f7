//! The proved gatekeeper beside a plain Rust program of the same rules: processor time and instructions per call.
//!
//! It is no test: it has no limit and fails only where the programs find different answers.

mod clock;
mod counting;
mod figures;
mod growth;
mod inputs;
mod layouts;
mod leb;
mod options;
mod plot;
mod report;
mod typed;

use std::env;
use std::fs;
use std::process::ExitCode;

use growth::Point;
use inputs::{Work, WORKS};
use options::{Options, Task};

fn main() -> ExitCode {
    let options = match Options::read(env::args().skip(1)) {
        Ok(options) => options,
        Err(fault) => {
            eprintln!("bench: {fault}; see 'bench/run --help'");
            return ExitCode::from(2);
        }
    };
    let works: Vec<Work> = WORKS.into_iter().filter(|work| work.name().contains(&options.only)).collect();
    if works.is_empty() {
        eprintln!("bench: no input has '{}' in its name; 'bench/run --rounds 1' shows all", options.only);
        return ExitCode::from(2);
    }
    match run(&options, &works) {
        Ok(()) => ExitCode::SUCCESS,
        Err(fault) => {
            eprintln!("bench: {fault}");
            ExitCode::FAILURE
        }
    }
}

fn run(options: &Options, works: &[Work]) -> Result<(), String> {
    match &options.task {
        Task::Help => print!("{}", options::HELP),
        Task::Times => print_times(options, works),
        Task::Instructions => {
            print_times(options, works);
            let counts = figures::counts(options, works)?;
            println!("\nInstructions per call");
            print!("{}", figures::table(&figures::instructions(&counts), report::count).text(false));
        }
        Task::Markdown => markdown(options, works)?,
        Task::Plot(file) => {
            let figures = figures::grown()?;
            fs::write(file, plot::svg(&figures))
                .map_err(|error| format!("{file} is not written: {error}"))?;
            println!("Instructions per call; the plot is in {file}");
            print!("{}", figures::growth_table(&figures).text(false));
            println!("\nInstructions per call by length of the rings, 512 handles");
            print!("{}", figures::ring_table(&figures).text(false));
        }
        Task::Counted => figures::run_counted(options, works),
        Task::CountedGrowth => growth::points().into_iter().for_each(Point::run),
    }
    Ok(())
}

fn print_times(options: &Options, works: &[Work]) {
    println!("Processor time per call, the best of {} rounds", options.rounds);
    print!("{}", figures::table(&figures::times(options, works), report::time).text(false));
}

/// All tables, as docs/PERFORMANCE.md has them.
fn markdown(options: &Options, works: &[Work]) -> Result<(), String> {
    eprintln!("bench: timing, {} rounds of each input", options.rounds);
    let times = figures::times(options, works);
    let counts = figures::counts(options, works)?;
    let instructions = figures::instructions(&counts);
    let grown = figures::grown()?;

    println!("Taken with {} and {} on {}.\n", env!("GATEKEEPER_RUSTC"), counting::version()?, processor());
    println!("### Time\n\nProcessor time per call, the best of {} rounds.\n", options.rounds);
    println!("{}\n{}\n", figures::table(&times, report::time).text(true), figures::verdict(&times));
    println!("### Instructions\n\nInstructions per call; another run moves them by less than one in a thousand.\n");
    println!(
        "{}\n{}\n",
        figures::table(&instructions, report::count).text(true),
        figures::verdict(&instructions)
    );
    println!("### Where the instructions go\n\nBy function, what it calls left out; those with a twentieth or more.\n");
    println!("{}", figures::shares(&counts).text(true));
    println!(
        "### By number of open handles\n\nInstructions per call; the plot above has the same figures.\n"
    );
    println!("{}", figures::growth_table(&grown).text(true));
    println!("### By length of the rings\n\nInstructions per call; 512 handles.\n");
    print!("{}", figures::ring_table(&grown).text(true));
    Ok(())
}

/// The processor's name, as the system has it.
fn processor() -> String {
    let cpuinfo = fs::read_to_string("/proc/cpuinfo").unwrap_or_default();
    let name = cpuinfo.lines().find_map(|line| line.strip_prefix("model name")?.split_once(": "));
    name.map_or("an unknown processor", |(_, name)| name).to_string()
}
