//! Compares the static library with the independent decoder and prints what was found.

use std::env;
use std::process;

use compare::{run, Plan, DECODERS};

const USAGE: &str = "usage: compare [--seed S] [--count N] [--small]
  --seed S   the seed of the random inputs (1)
  --count N  how many random inputs there are beside the exhaustive ones (120000, or 2000 with --small); a quarter as many cuts
             of random recordings come on top
  --small    shorter exhaustive lists, and nothing that takes long under a memory checker";
const SEED: u64 = 1;
const COUNT: u32 = 120_000;
const SMALL_COUNT: u32 = 2_000;

/// The plan that the arguments ask for; none where they are not as they should be.
fn plan(mut arguments: impl Iterator<Item = String>) -> Option<Plan> {
    let (mut seed, mut count, mut small) = (SEED, None, false);
    while let Some(argument) = arguments.next() {
        match argument.as_str() {
            "--seed" => seed = arguments.next()?.parse().ok()?,
            "--count" => count = Some(arguments.next()?.parse().ok()?),
            "--small" => small = true,
            _ => return None,
        }
    }
    let count = count.unwrap_or(if small { SMALL_COUNT } else { COUNT });
    Some(Plan { seed, count, small })
}

fn main() {
    let plan = match plan(env::args().skip(1)) {
        Some(plan) => plan,
        None => {
            eprintln!("{}", USAGE);
            process::exit(2);
        }
    };
    let report = run(&plan, DECODERS);
    print!("{}", report);
    if report.differences > 0 {
        process::exit(1);
    }
}
