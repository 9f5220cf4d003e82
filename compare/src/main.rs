//! The comparison: the port's archive, the Rust original and a model of document 01 in one process. See ../README.md.

mod abi;
mod alphabet;
mod asking;
mod blocks;
mod case;
mod check;
mod damaged;
mod faults;
mod genome;
mod model;
mod packing;
mod port;
mod random;
mod reference;
mod streaming;
mod tally;
mod windows;
mod worked;

use case::Layer;
use check::{Checker, Go};
use faults::Fault;
use random::Random;
use std::process::ExitCode;
use std::time::Instant;

const USAGE: &str = "usage: main [--seed N] [--scale N] [--planted | --trace]";
const DEFAULT_SEED: u64 = 20_261_103;
const DEFAULT_SCALE: u64 = 10;

struct Options {
    seed: u64,
    scale: u64,
    planted: bool,
    trace: bool,
}

fn options() -> Result<Options, String> {
    let mut found = Options { seed: DEFAULT_SEED, scale: DEFAULT_SCALE, planted: false, trace: false };
    if let Ok(seed) = std::env::var("COMPARE_SEED") {
        found.seed = seed.parse().map_err(|_| format!("COMPARE_SEED is no number: {seed}"))?;
    }
    let mut arguments = std::env::args().skip(1);
    while let Some(argument) = arguments.next() {
        let mut number = || arguments.next().and_then(|text| text.parse().ok()).ok_or(USAGE);
        match argument.as_str() {
            "--seed" => found.seed = number()?,
            "--scale" => found.scale = number()?,
            "--planted" => found.planted = true,
            "--trace" => found.trace = true,
            _ => return Err(USAGE.to_string()),
        }
    }
    Ok(found)
}

/// All cases of one layer. Each layer has numbers of its own from the seed, so that one does not move another's cases.
fn cases(layer: Layer, check: &mut Checker, options: &Options) -> Go {
    let random = &mut Random::new(options.seed ^ (layer as u64) << 32);
    let scale = options.scale;
    match layer {
        Layer::Alphabet => alphabet::cases(check, random, scale),
        Layer::Packing => packing::cases(check, random, scale),
        Layer::Windows => windows::cases(check, random, scale),
        Layer::Streaming => streaming::cases(check, random, scale),
        Layer::Ending => streaming::ends(check, random, scale),
        Layer::Genome => genome::cases(check, random, scale),
        Layer::Asking => asking::cases(check, random, scale),
        Layer::Blocks => blocks::cases(check, random),
    }
}

/// The comparison proper; true if nothing differs.
fn compare(options: &Options) -> bool {
    let start = Instant::now();
    let mut check = Checker::new(options.seed, None);
    check.trace = options.trace;
    println!("seed {}, scale {}", options.seed, options.scale);
    let _ = worked::rows(&mut check);
    for layer in Layer::ALL {
        // Without a fault no case stops the run.
        let _ = cases(layer, &mut check, options);
    }
    check.print_table();
    println!("time: {:.1} s", start.elapsed().as_secs_f64());
    println!("comparison: {} cases, {} differences", check.cases(), check.differences());
    check.differences() == 0
}

/// Runs the cases against each planted fault; true if every fault is noticed.
fn planted(options: &Options) -> bool {
    let (mut noticed, mut missed) = (0, 0);
    for &(fault, layer, text) in Fault::ALL {
        let mut check = Checker::new(options.seed, Some(fault));
        let _ = cases(layer, &mut check, options);
        match &check.noticed {
            Some(call) => {
                noticed += 1;
                println!("noticed, case {}: {text}\n    {call}", check.cases());
            }
            None => {
                missed += 1;
                println!("NOT NOTICED in {} cases: {text}", check.cases());
            }
        }
    }
    println!("planted faults: {noticed} noticed, {missed} not noticed");
    missed == 0
}

fn main() -> ExitCode {
    let options = match options() {
        Ok(options) => options,
        Err(text) => {
            eprintln!("{text}");
            return ExitCode::from(2);
        }
    };
    let good = if options.planted { planted(&options) } else { compare(&options) };
    ExitCode::from(u8::from(!good))
}
