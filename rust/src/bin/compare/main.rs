//! Holds a program to the independent version of `showplan` or `replay`, byte by byte, over many made inputs.

mod damage;
mod draft;
mod prng;
mod program;
mod replay;
mod showplan;
mod subject;

use std::num::NonZero;
use std::path::PathBuf;
use std::process::ExitCode;
use std::sync::atomic::{AtomicUsize, Ordering};
use std::{env, fs, io, thread};

use crate::prng::Prng;
use crate::program::Difference;
use crate::replay::Replaying;
use crate::showplan::Showplan;
use crate::subject::{Subject, Tally};

const USAGE: &str = "usage: compare showplan|replay PROGRAM [SEED] [COUNT]";
const DEFAULT_SEED: u64 = 20_260_414;
const DEFAULT_COUNT: usize = 6_000;
/// How many differences are shown in full; the others are only counted.
const SHOWN_DIFFERENCES: usize = 3;

struct Arguments {
    subject: String,
    program: PathBuf,
    seed: u64,
    count: usize,
}

impl Arguments {
    fn parse(mut given: impl Iterator<Item = String>) -> Option<Arguments> {
        let subject = given.next()?;
        let program = PathBuf::from(given.next()?);
        let seed = given.next().map_or(Ok(DEFAULT_SEED), |seed| seed.parse()).ok()?;
        let count = given.next().map_or(Ok(DEFAULT_COUNT), |count| count.parse()).ok()?;
        given.next().is_none().then_some(Arguments { subject, program, seed, count })
    }
}

/// What one thread found.
struct Findings<T> {
    tally: T,
    /// The first few, to be shown.
    shown: Vec<Difference>,
    differences: usize,
}

impl<T: Tally> Findings<T> {
    fn new() -> Findings<T> {
        Findings { tally: T::default(), shown: Vec::new(), differences: 0 }
    }

    fn add(&mut self, other: Findings<T>) {
        self.tally += other.tally;
        self.shown.extend(other.shown);
        self.differences += other.differences;
    }
}

/// Runs cases until `next` has come to the count. Cases are handed out one by one, since some take much
/// longer than others.
fn work<S: Subject>(arguments: &Arguments, next: &AtomicUsize) -> io::Result<Findings<S::Tally>> {
    let mut findings = Findings::new();
    loop {
        let index = next.fetch_add(1, Ordering::Relaxed);
        if index >= arguments.count {
            return Ok(findings);
        }
        let input = S::input(&mut Prng::of_case(arguments.seed, index));
        let wanted = S::wanted(&input, &mut findings.tally);
        let output = program::run(&arguments.program, &input)?;
        if Difference::is_in(&output, &wanted) {
            findings.differences += 1;
            if findings.shown.len() < SHOWN_DIFFERENCES {
                findings.shown.push(Difference { index, input, wanted, output });
            }
        }
    }
}

fn work_in_threads<S: Subject>(arguments: &Arguments) -> io::Result<Findings<S::Tally>> {
    let count = thread::available_parallelism().map_or(2, NonZero::get).clamp(2, 4);
    let next = AtomicUsize::new(0);
    thread::scope(|scope| {
        let workers: Vec<_> = (0..count).map(|_| scope.spawn(|| work::<S>(arguments, &next))).collect();
        let mut all = Findings::new();
        for worker in workers {
            all.add(worker.join().expect("a worker does not panic")?);
        }
        Ok(all)
    })
}

/// Keeps an input as it is, to be run again by hand.
fn keep(arguments: &Arguments, difference: &Difference) -> io::Result<PathBuf> {
    let Arguments { subject, seed, .. } = arguments;
    let path = env::temp_dir().join(format!("compare-{subject}-{seed}-{}.txt", difference.index));
    fs::write(&path, &difference.input)?;
    Ok(path)
}

fn report<T: Tally>(arguments: &Arguments, mut findings: Findings<T>) -> bool {
    findings.shown.sort_by_key(|difference| difference.index);
    for difference in findings.shown.iter().take(SHOWN_DIFFERENCES) {
        print!("seed {}, {difference}", arguments.seed);
        if let Ok(path) = keep(arguments, difference) {
            println!("  the whole input is in {}", path.display());
        }
    }
    println!("seed {}, {} cases", arguments.seed, arguments.count);
    print!("{}", findings.tally);
    println!("{:>9} differences", findings.differences);
    if !findings.tally.is_complete() {
        println!("{}", T::MISSING);
    }
    findings.differences == 0 && findings.tally.is_complete()
}

/// Whether nothing differs and everything was met.
fn compare<S: Subject>(arguments: &Arguments) -> io::Result<bool> {
    Ok(report(arguments, work_in_threads::<S>(arguments)?))
}

fn main() -> ExitCode {
    let usage = || {
        eprintln!("{USAGE}");
        ExitCode::from(2)
    };
    let Some(arguments) = Arguments::parse(env::args().skip(1)) else {
        return usage();
    };
    let outcome = match arguments.subject.as_str() {
        "showplan" => compare::<Showplan>(&arguments),
        "replay" => compare::<Replaying>(&arguments),
        _ => return usage(),
    };
    match outcome {
        Ok(true) => ExitCode::SUCCESS,
        Ok(false) => ExitCode::FAILURE,
        Err(error) => {
            eprintln!("{}: {error}", arguments.program.display());
            ExitCode::from(2)
        }
    }
}
