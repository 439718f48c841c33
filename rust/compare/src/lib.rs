//! Asks the static library and the independent decoder the same questions about generated inputs, and compares every answer
//! and every word of lent memory. A share of the inputs goes through the safe crate too.

mod bins;
mod bodies;
mod comparison;
mod cuts;
mod decoder;
mod fields;
mod inputs;
mod library;
mod payloads;
mod reference;
mod report;
mod slices;
mod streams;
mod wrapped;

use independent::generate::Random;

use comparison::Comparison;

pub use comparison::Decoders;
pub use decoder::Decoder;
pub use library::LIBRARY;
pub use reference::REFERENCE;
pub use report::{Cuts, Report};
pub use wrapped::{RECORDING, WRAPPED};

/// The library and the safe crate against the independent decoder.
pub const DECODERS: Decoders = Decoders {
    reference: &REFERENCE,
    library: &LIBRARY,
    wrappers: [&WRAPPED, &RECORDING],
};

/// What to compare.
#[derive(Debug, Clone, Copy)]
pub struct Plan {
    pub seed: u64,
    /// How many random inputs; the exhaustive ones, and a quarter as many cuts of random recordings, come on top.
    pub count: u32,
    /// Shorter exhaustive lists, and no input that takes long to read.
    pub small: bool,
}

/// Random inputs of one kind.
type Stage = fn(&mut Comparison, &mut Random, u64);

/// The kinds of random input, with the share of each in the hundred.
const STAGES: [(u64, Stage); 7] = [
    (25, streams::generated),
    (25, bodies::generated),
    (4, payloads::start_codes),
    (10, payloads::escapes),
    (14, payloads::generated_golomb),
    (7, bins::runs),
    (15, bins::single_steps),
];

/// Compares and reports.
pub fn run(plan: &Plan, decoders: Decoders) -> Report {
    let mut comparison = Comparison::new(decoders);
    let mut seeds = Random::new(plan.seed);
    exhaustive(&mut comparison, plan.small);
    let mut random = Random::new(seeds.word());
    payloads::longest(&mut comparison, &mut random);
    bins::longest(&mut comparison, &mut random);
    streams::too_long(&mut comparison, &mut random);
    if !plan.small {
        streams::longest(&mut comparison, &mut random);
        bodies::longest(&mut comparison, &mut random);
    }
    for (share, stage) in STAGES {
        // A source of its own, so that a change to one kind of input leaves the others.
        let mut random = Random::new(seeds.word());
        stage(&mut comparison, &mut random, u64::from(plan.count) * share / 100);
    }
    let mut random = Random::new(seeds.word());
    cuts::generated(&mut comparison, &mut random, u64::from(plan.count) / 4);
    comparison.finish()
}

/// What does not depend on the seed.
fn exhaustive(comparison: &mut Comparison, small: bool) {
    bodies::codes(comparison);
    let (start_codes, escapes, step, heights) = if small { (4, 3, 251, 97) } else { (9, 7, 1, 1) };
    payloads::all_start_codes(comparison, start_codes);
    payloads::lone_start_codes(comparison, if small { 14 } else { 30 });
    payloads::all_escapes(comparison, escapes);
    payloads::two_byte_golomb(comparison, step);
    payloads::cut_golomb(comparison, !small);
    bins::cut(comparison);
    // Prime to the number of counts left and wanted, so that all of them come by.
    bins::near_end(comparison, if small { 31 } else { 1 });
    bins::tables(comparison);
    bins::all_contexts(comparison, if small { 61 } else { 1 });
    slices::of_all_heights(comparison, heights);
    slices::of_two(comparison);
    // Each ending and each filling are among every third, too.
    let (groups, step) = if small { (2, 3) } else { (4, 1) };
    cuts::at_all_places(comparison, groups, step);
    fields::of_all_layouts(comparison, !small);
}
