//! What a comparison has found: the answers met, the inputs compared, the differences.

use std::cmp::Ordering;
use std::collections::BTreeMap;
use std::fmt;

use independent::NAMES;

/// Differences that are kept in full.
const KEPT: usize = 10;
/// Questions side by side in the table.
const COLUMNS: usize = 5;
/// One more than the greatest status.
const STATUSES: usize = NAMES[NAMES.len() - 1].0 as usize + 1;

/// What is asked.
#[derive(Clone, Copy)]
pub(crate) enum Question {
    Check,
    File,
    Row,
    Group,
    NextStartCode,
    Kind,
    SequenceHeader,
    Extension,
    FrameRate,
    DisplayRatio,
    RemoveEscapes,
    UnsignedGolomb,
    SignedGolomb,
    FreshContext,
    Start,
    Decode,
    DecodePair,
    Bypass,
    Stuffing,
    NextLg,
}

const QUESTIONS: [&str; 20] = [
    "check",
    "file",
    "row",
    "group",
    "next start code",
    "kind",
    "sequence header",
    "extension",
    "frame rate",
    "display ratio",
    "remove escapes",
    "unsigned golomb",
    "signed golomb",
    "fresh context",
    "start",
    "decode",
    "decode pair",
    "bypass",
    "stuffing",
    "next lg",
];

impl Question {
    pub fn name(self) -> &'static str {
        QUESTIONS[self as usize]
    }
}

/// A question that was answered in two ways.
#[derive(Debug, Clone)]
pub(crate) struct Difference {
    pub what: String,
    /// Who answered, and what.
    pub sides: [(&'static str, String); 2],
}

/// A difference with its input.
#[derive(Debug, Clone)]
struct Kept {
    difference: Difference,
    input: String,
}

/// Cuts at places of one kind.
#[derive(Debug, Clone, Copy, Default, PartialEq)]
pub struct Cuts {
    pub asked: u64,
    pub filed: u64,
}

#[derive(Debug, Clone)]
pub struct Report {
    pub inputs: u64,
    pub differences: u64,
    /// How often a question was answered in two ways.
    differing: [u64; QUESTIONS.len()],
    met: [[u64; STATUSES]; QUESTIONS.len()],
    /// How often a bit was carried, by question, status, bit and whether in a later group than the first.
    carried: BTreeMap<(usize, u32, usize, bool), u64>,
    /// How often so many bits were missing, by question, count, bit count beside what the bytes hold, and place beside the end.
    missing: BTreeMap<(usize, u32, Ordering, Ordering), u64>,
    /// How often so many numbers were handed over, by question and count.
    handed_over: BTreeMap<(usize, usize), u64>,
    /// How many recordings were cut at every place, and how many B0 start codes they have.
    recordings_cut: u64,
    headers_cut: u64,
    /// At which places, each with how many were cut there and how many of these cuts were filed.
    cuts: BTreeMap<&'static str, Cuts>,
    kept: Vec<Kept>,
}

impl Report {
    pub(crate) fn new() -> Self {
        Report {
            inputs: 0,
            differences: 0,
            differing: [0; QUESTIONS.len()],
            met: [[0; STATUSES]; QUESTIONS.len()],
            carried: BTreeMap::new(),
            missing: BTreeMap::new(),
            handed_over: BTreeMap::new(),
            recordings_cut: 0,
            headers_cut: 0,
            cuts: BTreeMap::new(),
            kept: Vec::new(),
        }
    }

    /// Counts an answer; the independent decoder's statuses all have a name.
    pub(crate) fn met(&mut self, question: Question, status: u32) {
        self.met[question as usize][status as usize] += 1;
    }

    /// Counts a refusal that carries a bit.
    pub(crate) fn carried(&mut self, question: Question, status: u32, bit: usize, later: bool) {
        *self.carried.entry((question as usize, status, bit, later)).or_insert(0) += 1;
    }

    /// The statuses with the bits that a question's refusals carried, in the first group or in later ones; of a single body, all.
    pub fn bits(&self, question: &str, later: bool) -> Vec<(u32, usize)> {
        let carried = self
            .carried
            .keys()
            .filter(|(q, _, _, l)| QUESTIONS[*q] == question && *l == later);
        carried.map(|&(_, status, bit, _)| (status, bit)).collect()
    }

    /// Counts a PAYLOAD OUT by the bits that were missing.
    pub(crate) fn missing(&mut self, question: Question, missing: u32, bits: Ordering, place: Ordering) {
        *self.missing.entry((question as usize, missing, bits, place)).or_insert(0) += 1;
    }

    /// How many bits were missing in a question's refusals, each count once: of payloads said to have fewer bits than the bytes
    /// hold, as many or more, read from a place before the end, at it or past it.
    pub fn counts_missing(&self, question: &str, bits: Ordering, place: Ordering) -> Vec<u32> {
        let of_question = self
            .missing
            .keys()
            .filter(|(q, _, b, p)| QUESTIONS[*q] == question && (*b, *p) == (bits, place));
        of_question.map(|&(_, missing, _, _)| missing).collect()
    }

    /// Counts an answer that hands so many numbers over.
    pub(crate) fn handed_over(&mut self, question: Question, count: usize) {
        *self.handed_over.entry((question as usize, count)).or_insert(0) += 1;
    }

    /// How many numbers a question was answered with, each count once.
    pub fn counts(&self, question: &str) -> Vec<usize> {
        let counts = self.handed_over.keys().filter(|(q, _)| QUESTIONS[*q] == question);
        counts.map(|&(_, count)| count).collect()
    }

    /// Counts a cut at a place.
    pub(crate) fn cut(&mut self, place: &'static str, filed: bool) {
        let cuts = self.cuts.entry(place).or_default();
        cuts.asked += 1;
        cuts.filed += u64::from(filed);
    }

    /// Counts a recording that was cut at every place, with its B0 start codes.
    pub(crate) fn cut_all(&mut self, headers: usize) {
        self.recordings_cut += 1;
        self.headers_cut += headers as u64;
    }

    /// The cuts by the places that they were made at.
    pub fn cuts(&self) -> &BTreeMap<&'static str, Cuts> {
        &self.cuts
    }

    /// The B0 start codes of the recordings that were cut.
    pub fn headers_cut(&self) -> u64 {
        self.headers_cut
    }

    /// How often an answer was met by all questions together.
    pub fn times(&self, status: u32) -> u64 {
        self.met.iter().map(|answers| answers[status as usize]).sum()
    }

    /// Counts a question that was answered in two ways.
    pub(crate) fn differing(&mut self, question: Question) {
        self.differing[question as usize] += 1;
    }

    /// The questions that were answered in two ways.
    pub fn differing_questions(&self) -> Vec<&'static str> {
        let counted = QUESTIONS.iter().zip(self.differing);
        counted.filter(|(_, count)| *count > 0).map(|(name, _)| *name).collect()
    }

    /// Counts a difference; the first ones are kept.
    pub(crate) fn difference(&mut self, difference: impl FnOnce() -> Difference) {
        self.differences += 1;
        if self.kept.len() < KEPT {
            let (difference, input) = (difference(), String::new());
            self.kept.push(Kept { difference, input });
        }
    }

    /// Names the input of the differences kept from number `from` on.
    pub(crate) fn name_input(&mut self, from: u64, input: &str) {
        for kept in self.kept.iter_mut().skip(from as usize) {
            kept.input = input.to_string();
        }
    }
}

/// A count; a dash for none, so that the others stand out.
fn shown(count: u64) -> String {
    match count {
        0 => "-".to_string(),
        _ => count.to_string(),
    }
}

/// A line of a table.
fn line(f: &mut fmt::Formatter, name: &str, cells: impl Iterator<Item = String>) -> fmt::Result {
    write!(f, "{:<28}", name)?;
    for cell in cells {
        write!(f, "{:>17}", cell)?;
    }
    writeln!(f)
}

/// Some questions side by side, an answer a line; those that none of them has are left out.
fn table(f: &mut fmt::Formatter, report: &Report, questions: &[usize]) -> fmt::Result {
    line(f, "", questions.iter().map(|&q| QUESTIONS[q].to_string()))?;
    for (status, name) in NAMES {
        let counts = questions.iter().map(|&q| report.met[q][status as usize]);
        if counts.clone().all(|count| count == 0) {
            continue;
        }
        let name = if status == 0 { "done" } else { name };
        line(f, &format!("{:2} {}", status, name), counts.map(shown))?;
    }
    writeln!(f)
}

/// The bits that refusals carried, each with how often: of bodies alone, in the first group of streams and in later ones.
fn bits(f: &mut fmt::Formatter, report: &Report) -> fmt::Result {
    let mut counts: BTreeMap<(u32, usize), [u64; 3]> = BTreeMap::new();
    for (&(q, status, bit, later), times) in &report.carried {
        let of_body = q == Question::SequenceHeader as usize || q == Question::Extension as usize;
        let column = if of_body { 0 } else { 1 + usize::from(later) };
        counts.entry((status, bit)).or_insert([0; 3])[column] += times;
    }
    let columns = ["bodies", "first group", "later groups"];
    line(f, "refusal at a bit", columns.iter().map(|name| name.to_string()))?;
    for ((status, bit), times) in counts {
        line(f, &format!("{:2} at bit {}", status, bit), times.iter().copied().map(shown))?;
    }
    writeln!(f)
}

/// How many bits were missing, each count with how often: of numbers, of starts and of bins of all kinds.
fn missing_bits(f: &mut fmt::Formatter, report: &Report) -> fmt::Result {
    const COLUMNS: [Question; 4] = [
        Question::UnsignedGolomb,
        Question::SignedGolomb,
        Question::Start,
        Question::Decode,
    ];
    let mut counts: BTreeMap<u32, [u64; COLUMNS.len()]> = BTreeMap::new();
    for (&(q, missing, _, _), times) in &report.missing {
        let column = COLUMNS
            .iter()
            .position(|column| *column as usize == q)
            .unwrap_or(COLUMNS.len() - 1);
        counts.entry(missing).or_insert([0; COLUMNS.len()])[column] += times;
    }
    let names = ["unsigned golomb", "signed golomb", "start", "bins"];
    line(f, "bits missing", names.iter().map(|name| name.to_string()))?;
    for (missing, times) in counts {
        line(f, &format!("{:2}", missing), times.iter().copied().map(shown))?;
    }
    writeln!(f)
}

/// Where recordings were cut, and how many cuts were filed.
fn cuts(f: &mut fmt::Formatter, report: &Report) -> fmt::Result {
    line(f, "cut at", ["cuts", "filed"].iter().map(|name| name.to_string()))?;
    for (place, cuts) in &report.cuts {
        line(f, place, [cuts.asked, cuts.filed].iter().copied().map(shown))?;
    }
    let filed: u64 = report.cuts.values().map(|cuts| cuts.filed).sum();
    writeln!(
        f,
        "{} recordings cut at every place: {} cuts filed, of {} B0 start codes\n",
        report.recordings_cut, filed, report.headers_cut
    )
}

impl fmt::Display for Report {
    fn fmt(&self, f: &mut fmt::Formatter) -> fmt::Result {
        let questions: Vec<usize> = (0..QUESTIONS.len()).collect();
        questions.chunks(COLUMNS).try_for_each(|some| table(f, self, some))?;
        bits(f, self)?;
        missing_bits(f, self)?;
        cuts(f, self)?;
        for (&(q, count), times) in &self.handed_over {
            writeln!(f, "{:<16} {:>2} numbers handed over {:>8} times", QUESTIONS[q], count, times)?;
        }
        writeln!(f)?;
        for kept in &self.kept {
            writeln!(f, "difference: {}\n  input, {}", kept.difference.what, kept.input)?;
            for (who, answer) in &kept.difference.sides {
                writeln!(f, "  {}: {}", who, answer)?;
            }
        }
        writeln!(f, "{} inputs compared, {} differences", self.inputs, self.differences)
    }
}
