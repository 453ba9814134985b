//! Compares two sides on random lists of calls.
//!
//! ```text
//! differ [--calls N] [--seed S] [--long] [--against SIDE] [--statistics] [--faults]
//! ```
//!
//! SIDE is `library`, `model`, or the name of a fault of the model. It is compared with the
//! model; with `--faults`, with each fault of the model, which must be noticed. Without
//! `--against` it is the library where that is linked, else the model. To ask for the library
//! where it is not linked is an error, so that a test that names it cannot pass without it.
//! A case that shows a difference is printed in lines that `desk shell` takes.
//! The exit status is 0 where all is as it must be, else 1.

use std::process::ExitCode;
use std::str::FromStr;
use std::time::Instant;

use compare::pair::Pair;
use compare::run::{run, Failure};
use compare::shrink::shortest;
use compare::side::{Side, LIBRARY, LIBRARY_NAME, MODEL};
use compare::statistics::Statistics;
use compare::step::Step;
use model::fault::FAULTS;
use model::image::Kind;
use model::Model;

/// Calls of a run, and of a long one.
const CALLS: usize = 100_000;
const LONG: usize = 5_000_000;
const SEED: u64 = 20_260_101;

const USAGE: &str = "usage: differ [--calls N] [--seed S] [--long] \
                     [--against library|model|FAULT] [--statistics] [--faults]";

/// What the command line asks for.
struct Options {
    calls: usize,
    seed: u64,
    against: (&'static str, &'static dyn Side),
    statistics: bool,
    faults: bool,
}

impl Options {
    /// Takes the words of the command line; what is wrong with them where they cannot be taken.
    fn read(mut words: impl Iterator<Item = String>) -> Result<Options, String> {
        let against = (LIBRARY_NAME, LIBRARY);
        let mut options = Options {
            calls: CALLS,
            seed: SEED,
            against,
            statistics: false,
            faults: false,
        };
        while let Some(word) = words.next() {
            match word.as_str() {
                "--calls" => options.calls = number(&word, words.next())?,
                "--seed" => options.seed = number(&word, words.next())?,
                "--long" => options.calls = LONG,
                "--against" => {
                    options.against = side(&words.next().ok_or("--against needs a side")?)?;
                }
                "--statistics" => options.statistics = true,
                "--faults" => options.faults = true,
                _ => return Err(format!("no option {word}")),
            }
        }
        Ok(options)
    }
}

/// The number behind an option.
fn number<T: FromStr>(option: &str, word: Option<String>) -> Result<T, String> {
    word.and_then(|word| word.parse().ok())
        .ok_or_else(|| format!("{option} needs a number"))
}

/// The side of that name, and how reports call it.
fn side(name: &str) -> Result<(&'static str, &'static dyn Side), String> {
    match name {
        "library" if cfg!(feature = "proved") => Ok((LIBRARY_NAME, LIBRARY)),
        "library" => Err("the library is not linked: build with the feature proved".into()),
        "model" => Ok(("model", MODEL)),
        _ => {
            let (fault, _) = FAULTS
                .iter()
                .find(|(fault, _)| format!("{fault:?}") == name)
                .ok_or_else(|| format!("no side {name}: --faults lists the faults"))?;
            Ok(("faulty model", Box::leak(Box::new(Model(*fault)))))
        }
    }
}

fn main() -> ExitCode {
    let words: Vec<String> = std::env::args().skip(1).collect();
    if words.iter().any(|word| word == "--help") {
        println!("{USAGE}");
        return ExitCode::SUCCESS;
    }
    let options = match Options::read(words.into_iter()) {
        Ok(options) => options,
        Err(message) => {
            eprintln!("differ: {message}\n{USAGE}");
            return ExitCode::FAILURE;
        }
    };
    let passed = if options.faults {
        notice_faults(&options)
    } else {
        compare(&options)
    };
    if passed {
        ExitCode::SUCCESS
    } else {
        ExitCode::FAILURE
    }
}

/// Compares the side with the model.
fn compare(options: &Options) -> bool {
    let begun = Instant::now();
    let mut statistics = Statistics::default();
    let mut pair = Pair::new(options.against, ("model", MODEL));
    let result = run(&mut pair, options.seed, options.calls, &mut statistics);
    if options.statistics {
        print!("{statistics}");
    }
    match result {
        Ok(calls) => {
            let seconds = begun.elapsed().as_secs_f64();
            let side = options.against.0;
            println!("{side} against model: {calls} calls, no difference ({seconds:.1} s)");
            true
        }
        Err(failure) => {
            report(&mut pair, options.seed, *failure);
            false
        }
    }
}

/// Prints the failing case, shrunk.
fn report(pair: &mut Pair, seed: u64, failure: Failure) {
    println!(
        "# a difference after {} calls; a short list of calls that shows it:",
        failure.calls
    );
    let shrunk = shortest(pair, seed, failure);
    if !matches!(shrunk.steps.first(), Some(Step::Fresh(_))) {
        println!("{}", Step::Fresh(Kind::Raw));
    }
    for step in &shrunk.steps {
        println!("{step}");
    }
    for line in &shrunk.difference.0 {
        println!("# {line}");
    }
}

/// Compares the side with each fault of the model.
fn notice_faults(options: &Options) -> bool {
    let mut noticed = 0;
    for &(fault, text) in FAULTS {
        let faulty = Model(fault);
        let mut pair = Pair::new(options.against, ("faulty model", &faulty));
        let mut statistics = Statistics::default();
        match run(&mut pair, options.seed, options.calls, &mut statistics) {
            Err(failure) => {
                noticed += 1;
                println!(
                    "noticed after {:>6} calls: {fault:?}: {text}",
                    failure.calls
                );
            }
            Ok(calls) => println!("NOT NOTICED in {calls} calls: {fault:?}: {text}"),
        }
    }
    println!("{noticed} of {} faults noticed", FAULTS.len());
    noticed == FAULTS.len()
}
