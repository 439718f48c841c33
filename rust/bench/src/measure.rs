//! Times of rivals, taken in turns.
use crate::plain_c::nanoseconds;

pub const LIBRARY: &str = "library";
pub const SAME: &str = "plain C, same algorithm";
pub const BYTE_WISE: &str = "plain C, byte-wise";

/// The library's speed is to be at least this much of plain C's.
const BAR: f64 = 0.9;

/// How large the inputs are, and how often each rival runs.
#[derive(Clone, Copy)]
pub struct Scale {
    pub stream: usize,
    pub payload: usize,
    pub runs: usize,
    pub repeats: usize,
}

/// Answers the same number in each run.
pub struct Rival<'a> {
    pub name: &'static str,
    pub run: Box<dyn FnMut() -> u64 + 'a>,
}

/// What a run does: so many bytes or bins.
pub struct Work {
    pub unit: &'static str,
    pub amount: usize,
}

pub struct Measured {
    row: &'static str,
    work: Work,
    /// Each rival's name and its median in nanoseconds.
    medians: Vec<(&'static str, f64)>,
}

pub fn measure(row: &'static str, work: Work, repeats: usize, mut rivals: Vec<Rival>) -> Measured {
    let mut times = vec![Vec::with_capacity(repeats); rivals.len()];
    // One run of each that is not timed: it brings pages and caches in, and says what all have to answer.
    let expected = (rivals[0].run)();
    for rival in &mut rivals {
        assert_eq!((rival.run)(), expected, "{}: {}", row, rival.name);
    }
    for repeat in 0..repeats {
        for turn in 0..rivals.len() {
            // Each is first in turn, so that none gains by its place.
            let i = (repeat + turn) % rivals.len();
            let before = nanoseconds();
            let answer = (rivals[i].run)();
            times[i].push(nanoseconds() - before);
            assert_eq!(answer, expected, "{}: {}", row, rivals[i].name);
        }
    }
    let medians = rivals
        .iter()
        .zip(times)
        .map(|(rival, times)| (rival.name, median(times)))
        .collect();
    Measured { row, work, medians }
}

fn median(mut times: Vec<u64>) -> f64 {
    times.sort_unstable();
    let middle = times.len() / 2;
    if times.len() % 2 == 1 {
        times[middle] as f64
    } else {
        (times[middle - 1] + times[middle]) as f64 / 2.0
    }
}

impl Measured {
    fn median_of(&self, name: &str) -> f64 {
        self.medians
            .iter()
            .find(|(rival, _)| *rival == name)
            .map_or(f64::NAN, |(_, median)| *median)
    }

    /// The library's speed over plain C's with the same algorithm.
    fn ratio(&self) -> f64 {
        self.median_of(SAME) / self.median_of(LIBRARY)
    }

    /// A line for each rival, which scripts/bench-links reads.
    pub fn print(&self) {
        let library = self.median_of(LIBRARY);
        for (name, median) in &self.medians {
            let each = median / self.work.amount as f64;
            println!(
                "{:<15} {:<28} {:>9.3} ms {:>8.3} ns/{:<4} {:>9.1} M{}/s {:>7.3}",
                self.row,
                name,
                median / 1e6,
                each,
                self.work.unit,
                1e3 / each,
                if self.work.unit == "byte" { "B" } else { "bins" },
                median / library
            );
        }
        println!();
    }
}

pub fn print_head() {
    println!("Times are medians of the thread's own time.");
    println!("The last column is the rival's time / the library's time: above 1 the library is the faster.\n");
}

pub fn print_lowest(rows: &[Measured]) {
    let lowest = rows.iter().min_by(|a, b| a.ratio().total_cmp(&b.ratio()));
    if let Some(row) = lowest {
        let ratio = row.ratio();
        let side = if ratio < BAR { "below" } else { "not below" };
        println!(
            "lowest library / plain C, same algorithm: {:.3} ({}), {} the bar of {}",
            ratio, row.row, side, BAR
        );
    }
}
