//! Compares the library, through its C interface, with the independent reader and writer.
//!
//! Without arguments it compares a fixed set of cases. With `--seconds` it goes on with further
//! seeds until the time has passed. A difference is printed with its input and the seed that gives
//! it again, and the status is 1.

mod args;
mod ask;
mod codes;
mod compare;
mod editions;
mod generate;
mod kinds;
mod lent;
mod numbers;
mod reached;
mod resolved;
mod run;
mod shown;
mod state;
mod tables;
mod titles;
mod view;

use args::Args;
use compare::Compared;
use run::Run;
use std::process::ExitCode;
use std::time::{Duration, Instant};

/// A run this long has time for longer strings among the fixed cases.
const DEEP: Duration = Duration::from_secs(600);

fn main() -> ExitCode {
    let args = match args::parse(std::env::args().skip(1)) {
        Ok(args) => args,
        Err(wrong) => {
            eprintln!("difftest: {wrong}; {}", args::USAGE);
            return ExitCode::from(2);
        }
    };
    let start = Instant::now();
    let mut run = Run::new(args.seed);
    if let Err(difference) = compare_all(&mut run, &args, start) {
        println!("difftest: a difference ({}): {difference}", run.place());
        return ExitCode::FAILURE;
    }
    println!("{}", run.reached.line());
    let lacking = run.reached.wrong().or_else(|| run.empty_kind());
    if let Some(lacking) = lacking {
        println!("difftest: {lacking}");
        return ExitCode::FAILURE;
    }
    let seconds = start.elapsed().as_secs();
    println!("difftest: no difference in {seconds} s: {}", run.line());
    ExitCode::SUCCESS
}

/// The fixed cases and those of one seed, and of further seeds while there is time.
fn compare_all(run: &mut Run, args: &Args, start: Instant) -> Compared<()> {
    if let Some(program) = &args.program {
        kinds::program::compare(run, program)?;
    }
    if let Some(resolver) = &args.resolver {
        kinds::program::compare_resolver(run, resolver)?;
    }
    if let Some(walker) = &args.walker {
        kinds::program::compare_walker(run, walker)?;
    }
    kinds::fixed(run, args.time >= DEEP)?;
    kinds::seeded(run)?;
    let mut seed = args.seed;
    while start.elapsed() < args.time {
        seed += 1;
        run.reseed(seed);
        kinds::seeded(run)?;
    }
    Ok(())
}
