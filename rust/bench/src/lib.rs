//! The library beside plain C and plain Rust, on the same inputs in one run.
mod bins;
mod inputs;
mod library;
mod measure;
mod plain_c;
mod plain_rust;
mod plain_rust_filing;
mod rows;
mod search;

pub use measure::{Measured, Scale};
pub use search::{search_rows, Next, Searcher};
use std::process::exit;

/// A row's name, and what measures it.
pub type Row<'a> = (&'static str, Box<dyn Fn(Scale) -> Measured + 'a>);

type Timed = fn(&'static str, Scale) -> Measured;

const RECORDINGS: [(&str, Timed); 9] = [
    ("filing", rows::filing),
    ("filing-no-00", rows::filing_no_00),
    ("filing-all-00", rows::filing_all_00),
    ("filing-00-01", rows::filing_00_01),
    ("filing-33", rows::filing_33),
    ("filing-666", rows::filing_666),
    ("filing-16383", rows::filing_16383),
    ("filing-16384", rows::filing_16384),
    ("heads-alone", rows::heads_alone),
];

const PAYLOADS: [(&str, Timed); 6] = [
    ("escapes-rich", rows::escapes_rich),
    ("escapes-sparse", rows::escapes_sparse),
    ("escapes-random", rows::escapes_random),
    ("bins-1", bins::one_context),
    ("bins-512", bins::many_contexts),
    ("bins-missed", bins::missed),
];

/// All rows, in the order of the table.
pub fn all_rows() -> Vec<Row<'static>> {
    let row = |(name, timed): (&'static str, Timed)| -> Row { (name, Box::new(move |scale| timed(name, scale))) };
    let recordings = RECORDINGS.into_iter().map(row);
    recordings
        .chain(search_rows(&[]))
        .chain(PAYLOADS.into_iter().map(row))
        .collect()
}

const FULL: Scale = Scale {
    stream: 16_777_216,
    payload: 65536,
    runs: 16,
    repeats: 15,
};

const QUICK: Scale = Scale {
    stream: 1_048_576,
    payload: 8192,
    runs: 4,
    repeats: 3,
};

/// Measures and prints those of the rows that the command line asks for.
pub fn run(rows: &[Row]) {
    let (scale, wanted) = arguments(rows, std::env::args().skip(1)).unwrap_or_else(|why| {
        eprintln!("{}\narguments: [--repeats N] [--quick] [--row NAME]", why);
        exit(2)
    });
    measure::print_head();
    let mut measured = Vec::new();
    for (name, row) in rows {
        if wanted.is_empty() || wanted.iter().any(|one| one == name) {
            let one = row(scale);
            one.print();
            measured.push(one);
        }
    }
    measure::print_lowest(&measured);
}

/// The scale and the rows that are asked for, none for all.
fn arguments(rows: &[Row], mut given: impl Iterator<Item = String>) -> Result<(Scale, Vec<String>), String> {
    let mut quick = false;
    let mut repeats = None;
    let mut wanted = Vec::new();
    while let Some(argument) = given.next() {
        match argument.as_str() {
            "--quick" => quick = true,
            "--repeats" => repeats = Some(count(given.next())?),
            "--row" => wanted.push(row_name(rows, given.next())?),
            other => return Err(format!("unknown argument {}", other)),
        }
    }
    let scale = if quick { QUICK } else { FULL };
    let repeats = repeats.unwrap_or(scale.repeats);
    Ok((Scale { repeats, ..scale }, wanted))
}

fn count(given: Option<String>) -> Result<usize, String> {
    let number = given.and_then(|text| text.parse().ok()).unwrap_or(0);
    if number == 0 {
        return Err("--repeats wants a number from 1 on".to_string());
    }
    Ok(number)
}

fn row_name(rows: &[Row], given: Option<String>) -> Result<String, String> {
    let name = given.unwrap_or_default();
    if rows.iter().any(|(row, _)| *row == name) {
        return Ok(name);
    }
    let names: Vec<&str> = rows.iter().map(|(row, _)| *row).collect();
    Err(format!("--row wants one of {}", names.join(", ")))
}
