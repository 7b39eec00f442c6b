//! Holds the library against an independent model, on cases made from a seed.

mod compare;
mod generate;
mod library;
mod machine;
mod memory;
mod model;
mod random;
mod sessions;
mod tally;

use std::process::ExitCode;
use std::thread;

use compare::{Difference, Pair, BLOCK};
use library::LIBRARY;
use machine::Machine;
use model::faults::{planted, Planted, NONE};
use tally::Tally;

const DEFAULT_CASES: u64 = 1_000_000;
const DEFAULT_SEED: u64 = 2026;

/// A planted fault has to show within this many cases.
const TEETH_CASES: u64 = 300_000;

/// A shorter run isn't asked to have met every refusal.
const WHOLE_RUN: u64 = 1_000_000;

const WORKERS: u64 = 2;

struct Options {
    cases: u64,
    seed: u64,
    teeth: bool,
    verbose: bool,
}

fn options() -> Result<Options, String> {
    let mut options = Options {
        cases: DEFAULT_CASES,
        seed: DEFAULT_SEED,
        teeth: false,
        verbose: false,
    };
    let mut arguments = std::env::args().skip(1);
    while let Some(argument) = arguments.next() {
        let mut number = || {
            let text = arguments.next().unwrap_or_default();
            text.parse()
                .map_err(|_| format!("{argument} needs a number"))
        };
        match argument.as_str() {
            "--cases" => options.cases = number()?,
            "--seed" => options.seed = number()?,
            "--teeth" => options.teeth = true,
            "--verbose" => options.verbose = true,
            _ => return Err(format!("unknown argument {argument}")),
        }
    }
    Ok(options)
}

/// Runs every `step`th block from `first` on, up to the first difference.
fn run(model: &Machine, cases: u64, seed: u64, first: u64, step: u64) -> Result<Tally, Difference> {
    let mut tally = Tally::default();
    let mut pair = Pair::new(&LIBRARY, model);
    let mut block = first;
    while block * BLOCK < cases {
        pair.run_block(seed, block, cases - block * BLOCK, &mut tally)?;
        block += step;
    }
    Ok(tally)
}

/// The workers share no cases, and of several differences the first case's is
/// reported, so the result doesn't depend on their timing.
fn run_all(cases: u64, seed: u64) -> Result<Tally, Difference> {
    let workers: Vec<_> = (0..WORKERS)
        .map(|worker| {
            thread::spawn(move || run(&Machine::model::<NONE>(), cases, seed, worker, WORKERS))
        })
        .collect();
    let mut total = Tally::default();
    let mut first: Option<Difference> = None;
    for worker in workers {
        match worker.join().expect("a worker ends with a result") {
            Ok(tally) => total.add(&tally),
            Err(found) if first.as_ref().is_none_or(|other| found.case < other.case) => {
                first = Some(found);
            }
            Err(_) => {}
        }
    }
    match first {
        Some(difference) => Err(difference),
        None => Ok(total),
    }
}

fn differential(options: &Options) -> ExitCode {
    let (cases, seed) = (options.cases, options.seed);
    match run_all(cases, seed) {
        Err(difference) => {
            println!("differential: difference: {}", difference.text);
            ExitCode::FAILURE
        }
        Ok(tally) => {
            let lacks = tally.lacks();
            let text = tally.text();
            if cases >= WHOLE_RUN && !lacks.is_empty() {
                println!(
                    "differential: {cases} cases, seed {seed}: {text}: lacking: {}",
                    lacks.join(", ")
                );
                return ExitCode::FAILURE;
            }
            println!("differential: {cases} cases, seed {seed}: {text}: no difference");
            ExitCode::SUCCESS
        }
    }
}

/// The difference that shows each planted fault, in their order.
fn bite(seed: u64) -> Vec<Option<Difference>> {
    let halves: Vec<_> = (0..WORKERS as usize)
        .map(|worker| {
            thread::spawn(move || {
                let faults = planted();
                let mine = faults.iter().skip(worker).step_by(WORKERS as usize);
                mine.map(|fault| run(&fault.machine, TEETH_CASES, seed, 0, 1).err())
                    .collect::<Vec<_>>()
            })
        })
        .collect();
    let mut found: Vec<Option<Difference>> = planted().iter().map(|_| None).collect();
    for (worker, half) in halves.into_iter().enumerate() {
        let half = half.join().expect("a worker ends with a result");
        for (index, difference) in half.into_iter().enumerate() {
            found[worker + index * WORKERS as usize] = difference;
        }
    }
    found
}

/// A difference says nothing about a fault if the model without faults differs
/// from the library as well.
fn sound(found: &[Option<Difference>], seed: u64) -> Result<Tally, Difference> {
    let cases = found.iter().flatten().map(|difference| difference.case + 1);
    run_all(cases.max().unwrap_or(0), seed)
}

fn teeth(options: &Options) -> ExitCode {
    let found = bite(options.seed);
    if let Err(difference) = sound(&found, options.seed) {
        println!("teeth: difference without a fault: {}", difference.text);
        return ExitCode::FAILURE;
    }
    let mut missed = Vec::new();
    for (Planted { number, name, .. }, difference) in planted().iter().zip(&found) {
        match difference {
            None => missed.push(format!("{number} {name}")),
            Some(difference) if options.verbose => {
                println!("{number} {name}: case {}", difference.case);
            }
            Some(_) => {}
        }
    }
    let (all, bitten) = (found.len(), found.len() - missed.len());
    if missed.is_empty() {
        println!("teeth: {bitten} of {all} planted faults found");
        ExitCode::SUCCESS
    } else {
        println!(
            "teeth: {bitten} of {all} planted faults found; not found: {}",
            missed.join(", ")
        );
        ExitCode::FAILURE
    }
}

fn main() -> ExitCode {
    match options() {
        Err(message) => {
            eprintln!("differential: {message}");
            ExitCode::FAILURE
        }
        Ok(options) if options.teeth => teeth(&options),
        Ok(options) => differential(&options),
    }
}
