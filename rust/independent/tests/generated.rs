//! The generators, measured with this package's own decoder.

use std::collections::{BTreeMap, BTreeSet};

use independent::generate::*;
use independent::*;

/// The answer's number and, for a refusal at a unit, how many start codes stand before it.
fn outcome(stream: &[u8]) -> (usize, usize) {
    let mut rows = vec![0; 3 * stream.len()];
    match file(stream, &mut rows) {
        Ok(_) => (0, 0),
        Err(refused) => {
            let mut units = 0;
            let mut place = next_start_code(stream, 0);
            while place < refused.place {
                units += 1;
                place = next_start_code(stream, place + 1);
            }
            (refused.number as usize, units)
        }
    }
}

#[test]
fn good_streams_are_filed() {
    let mut random = Random::new(1);
    let mut longest = 0;
    for _ in 0..20_000 {
        let bytes = stream(&mut random);
        longest = longest.max(bytes.len());
        assert_eq!(outcome(&bytes).0, 0, "{bytes:02X?}");
    }
    assert!(longest > 4000, "{longest}");
}

/// One more than the greatest number of an answer.
const NUMBERS: usize = 33;

/// Whether damaged streams have this number: those of rows, payloads and bins they have not.
fn is_filed_with(number: usize) -> bool {
    !matches!(number, 8 | 12..=19)
}

#[test]
fn every_filing_refusal_is_met() {
    let mut random = Random::new(2);
    let mut met = [0; NUMBERS];
    let mut later = [0; NUMBERS];
    let mut furthest = [0; NUMBERS];
    for _ in 0..20_000 {
        let (number, unit) = outcome(&damaged(&mut random));
        met[number] += 1;
        later[number] += usize::from(unit >= 3);
        furthest[number] = furthest[number].max(unit);
    }
    for (number, name) in NAMES {
        let n = number as usize;
        println!(
            "{:2} {:25} {:5} times, {:5} at unit 3 or later, furthest {}",
            number, name, met[n], later[n], furthest[n]
        );
    }
    for (number, &count) in met.iter().enumerate() {
        assert_eq!(count > 0, is_filed_with(number), "{}: {:?}", number, met);
    }
    assert!(met[1..12].iter().all(|&count| count == 0 || count >= 100), "{:?}", met);
}

/// How many groups begin up to this place of a stream.
fn groups_up_to(stream: &[u8], place: u64) -> usize {
    let units = stream.windows(4).take(place as usize + 1);
    units.filter(|unit| *unit == [0, 0, 1, 0xB0]).count()
}

/// How often each number was met with each bit: in bodies, in the first group of streams and in later ones.
#[derive(Default)]
struct Met(BTreeMap<(u32, u64), [u32; 3]>);

impl Met {
    fn count(&mut self, number: u32, bit: Option<u64>, column: usize) {
        if let Some(bit) = bit {
            self.0.entry((number, bit)).or_insert([0; 3])[column] += 1;
        }
    }

    fn body<T>(&mut self, read: Result<T, Fault>) {
        if let Err(fault) = read {
            self.count(fault.number, fault.bit, 0);
        }
    }

    fn stream(&mut self, stream: &[u8]) {
        if let Err(refused) = check(stream) {
            let later = groups_up_to(stream, refused.place) > 1;
            self.count(refused.number, refused.bit, 1 + usize::from(later));
        }
    }

    /// All that document 02, E1 has, and nothing else, each so often.
    fn assert_all(&self, least: u32) {
        for ((number, bit), counts) in &self.0 {
            let [bodies, first, later] = counts;
            println!("{number:2} at bit {bit:2}: {bodies:4} bodies, {first:4} in the first group, {later:4} later");
            // A slice has no body that is asked about alone.
            let asked = if *number < 31 { &counts[..] } else { &counts[1..] };
            assert!(asked.iter().all(|&count| count >= least), "{number} at bit {bit}: {counts:?}");
        }
        assert_eq!(self.0.keys().copied().collect::<Vec<_>>(), BITS);
    }
}

#[test]
fn every_bit_is_met() {
    let mut random = Random::new(12);
    let mut met = Met::default();
    for _ in 0..20_000 {
        met.body(header(&header_body(&mut random)));
        met.body(extension(&extension_body(&mut random), true));
        met.stream(&damaged(&mut random));
    }
    met.assert_all(10);
}

/// The bodies that go through the values one by one, few and all; a slice is not among them.
#[test]
fn judged_bodies_meet_every_bit_of_a_body() {
    for all in [false, true] {
        let mut met = Met::default();
        let bodies = judged_bodies(all);
        for body in &bodies {
            match body.code {
                0xB0 => met.body(header(&body.bytes)),
                _ => met.body(extension(&body.bytes, true)),
            }
            streams_with(body).iter().for_each(|stream| met.stream(stream));
        }
        let streams: usize = bodies.iter().map(|body| streams_with(body).len()).sum();
        println!("{} bodies, {} streams", bodies.len(), streams);
        for bit in [(31, 0), (32, 0)] {
            assert_eq!(met.0.insert(bit, [1; 3]), None);
        }
        met.assert_all(1);
    }
}

/// Of each group of a filed stream: progressive, vertical size, and whether a slice is in its last row.
fn groups(stream: &[u8]) -> Vec<(u32, u32, bool)> {
    let mut rows = vec![0; 3 * stream.len()];
    let units = file(stream, &mut rows).unwrap_or(0) as usize;
    let mut groups: Vec<(Header, bool)> = Vec::new();
    for row in rows[..3 * units].chunks_exact(3) {
        if row[0] == 0xB0 {
            let body = row[1] as usize + 4;
            groups.push((header(&stream[body..body + row[2] as usize]).unwrap(), false));
        } else if let Some((header, last)) = groups.last_mut() {
            *last |= row[0] + 1 == macroblock_rows(header);
        }
    }
    groups.iter().map(|(h, last)| (h.progressive, h.vertical, *last)).collect()
}

/// Interlaced and progressive groups, where the two counts of rows differ and where they do not, with slices in their last row.
#[test]
fn both_counts_of_rows_are_met() {
    let mut random = Random::new(11);
    let mut met = [[0; 2]; 2];
    let mut edges = [[0; 5]; 2];
    for _ in 0..20_000 {
        for (progressive, vertical, last) in groups(&stream(&mut random)) {
            let differ = matches!(vertical % 32, 1..=16);
            let p = progressive as usize;
            met[p][usize::from(differ)] += u32::from(last && vertical <= 2800);
            let at = [
                vertical % 16 == 0,
                vertical % 16 == 1,
                vertical % 32 == 0,
                vertical % 32 == 1,
                vertical == 2800,
            ];
            (0..5).for_each(|i| edges[p][i] += u32::from(at[i] && vertical <= 2800));
        }
    }
    println!("last rows {met:?}, heights 16k, 16k + 1, 32k, 32k + 1 and 2800 {edges:?}");
    assert!(met.iter().flatten().all(|&count| count >= 1000), "{met:?}");
    assert!(edges.iter().flatten().all(|&count| count >= 200), "{edges:?}");
}

/// How often each number comes up in 20,000 tries.
fn tally(mut try_once: impl FnMut() -> u32) -> [u32; NUMBERS] {
    let mut met = [0; NUMBERS];
    for _ in 0..20_000 {
        met[try_once() as usize] += 1;
    }
    met
}

/// The number of an answer. A count of missing bits goes with PAYLOAD OUT alone, and is at least 1.
fn number<T>(answer: Result<T, Unread>) -> u32 {
    match answer {
        Ok(_) => 0,
        Err(Unread { number, missing }) => {
            assert_eq!(missing.is_some(), number == 14);
            assert_ne!(missing, Some(0));
            number
        }
    }
}

#[test]
fn bodies_are_good_about_half_the_time() {
    let mut random = Random::new(3);
    let of_body = |fault: Option<Fault>| fault.map_or(0, |fault| fault.number);
    let headers = tally(|| of_body(header(&header_body(&mut random)).err()));
    let extensions = tally(|| of_body(extension(&extension_body(&mut random), true).err()));
    println!("headers {headers:?}\nextensions {extensions:?}");
    for met in [headers, extensions] {
        assert!((8000..=14_000).contains(&met[0]));
        assert!([6, 7, 9].iter().all(|&number| met[number] >= 500));
        assert!(met[20..].iter().sum::<u32>() >= 500);
    }
}

#[test]
fn payload_refusals_are_met() {
    let mut random = Random::new(4);
    let escapes = tally(|| {
        let bytes = payload(&mut random);
        let lent = bytes.len() - random.index(20).saturating_sub(18).min(bytes.len());
        unescape(&bytes, &mut vec![0; lent]).err().unwrap_or(0)
    });
    let numbers = tally(|| {
        let bytes = payload(&mut random);
        let bits = 8 * bytes.len() as u64;
        let place = random.below(bits + 2);
        number(golomb(&bytes, bits + 1 - random.below(3).min(bits), place))
    });
    println!("escape removal {escapes:?}\nExp-Golomb {numbers:?}");
    assert!(escapes[0] >= 15_000 && escapes[12] >= 500 && escapes[13] >= 5);
    assert!(numbers[0] >= 5000 && numbers[8] >= 100 && numbers[13] >= 5 && numbers[14] >= 500);
}

/// How many bits are missing.
fn missing<T>(answer: Result<T, Unread>) -> Option<u32> {
    answer.err().and_then(|unread| unread.missing)
}

/// Numbers cut at each of their bits, by the bytes and by the bit count.
#[test]
fn cut_numbers_meet_every_count() {
    let mut all = BTreeSet::new();
    for zeros in 0..=33 {
        let mut met = BTreeSet::new();
        let whole = 2 * zeros + 1;
        let (longer, place) = cut_number(zeros, whole + 9);
        for kept in 0..=whole {
            let (bytes, from) = cut_number(zeros, kept);
            assert_eq!(8 * bytes.len() as u64, from + kept);
            let by_bytes = golomb(&bytes, u64::MAX, from);
            let by_count = golomb(&longer, place + kept, place);
            assert_eq!(missing(by_bytes), missing(by_count), "{zeros} zeros, {kept} kept");
            assert_eq!(by_bytes.is_ok(), kept == whole && zeros < 32);
            met.extend(missing(by_bytes));
        }
        // Each bit of b is missing in turn; of 32 zeros no b is read.
        let most = if zeros < 32 { zeros.max(1) as u32 } else { 1 };
        assert!(met.iter().copied().eq(1..=most), "{zeros} zeros: {met:?}");
        all.extend(met);
    }
    assert!(all.into_iter().eq(MISSING_OF_NUMBERS));
}

#[test]
fn generated_payloads_meet_every_count_of_a_start() {
    let mut random = Random::new(13);
    let mut met = BTreeSet::new();
    for _ in 0..20_000 {
        let bytes = bins_payload(&mut random);
        let count = 8 * bytes.len() as u64;
        met.extend(missing(start(&bytes, count.saturating_sub(random.below(9)))));
    }
    assert!(met.into_iter().eq(MISSING_OF_STARTS));
}

#[test]
fn bin_refusals_are_met() {
    let mut random = Random::new(5);
    let mut ones = 0;
    let singles = tally(|| {
        let bytes = bins_payload(&mut random);
        let bits = 8 * bytes.len() as u64;
        let answer = decode(&bytes, bits, state(&mut random, bits), context(&mut random));
        ones += u32::from(matches!(answer, Ok((1, _, _))));
        number(answer)
    });
    println!("bins {singles:?}, of them ones {ones}");
    assert!(singles[0] >= 10_000 && singles[13] >= 5 && singles[14] >= 500 && singles[15] >= 2000);
    assert!(ones >= 4000 && ones <= singles[0] - 4000);
}

/// Every state and context that a good step answers is within its ranges: the next step is never BAD STATE.
#[test]
fn steps_stay_in_range() {
    let mut random = Random::new(6);
    for _ in 0..2000 {
        let bytes = bins_payload(&mut random);
        let count = 8 * bytes.len() as u64;
        let mut s = state(&mut random, count);
        let (mut a, mut b) = (context(&mut random), context(&mut random));
        let mut steps = 0;
        while let Ok((_, after, after_a, after_b)) = decode_pair(&bytes, count, s, a, b) {
            s = after;
            a = after_a;
            b = after_b;
            steps += 1;
            if steps == 500 {
                break;
            }
        }
        if steps > 0 {
            assert_ne!(number(decode_pair(&bytes, count, s, a, b)), 15);
        }
    }
}

#[test]
fn refusals_write_nothing() {
    let mut random = Random::new(7);
    for _ in 0..2000 {
        let bytes = damaged(&mut random);
        let words = random.index(200);
        let mut rows = vec![0xABCD; words];
        match file(&bytes, &mut rows) {
            Ok(units) => assert!(rows[3 * units as usize..].iter().all(|&word| word == 0xABCD)),
            Err(_) => assert!(rows.iter().all(|&word| word == 0xABCD)),
        }
        let g = random.below(4);
        let same = match (file(&bytes, &mut vec![0; 3 * bytes.len()]), group(&bytes, g)) {
            (Ok(_), Err(refused)) => refused.number == 16 && refused.place == 0 && refused.bit.is_none(),
            (Ok(_), Ok(_)) => true,
            (Err(a), b) => b == Err(a),
        };
        assert!(same);
    }
}

#[test]
fn generators_are_deterministic() {
    let make = |seed| {
        let mut random = Random::new(seed);
        (0..50).map(|_| damaged(&mut random)).collect::<Vec<_>>()
    };
    assert_eq!(make(8), make(8));
    assert_ne!(make(8), make(9));
}

/// A number that is small, or at the far end of its range.
fn wild(random: &mut Random) -> u64 {
    match random.below(3) {
        0 => random.below(80),
        1 => u64::MAX - random.below(80),
        _ => random.word(),
    }
}

#[test]
fn nothing_panics() {
    let mut random = Random::new(10);
    for _ in 0..5000 {
        let bytes = bins_payload(&mut random);
        let (count, place) = (wild(&mut random), wild(&mut random));
        let s = state(&mut random, count);
        let (a, b) = (context(&mut random), context(&mut random));
        let rows: Vec<u32> = (0..random.below(9)).map(|_| wild(&mut random) as u32).collect();
        let _ = (golomb(&bytes, count, place), signed_golomb(&bytes, count, place));
        let _ = (start(&bytes, count), bypass(&bytes, count, s), stuffing(&bytes, count, s));
        let _ = (decode(&bytes, count, s, a), decode_pair(&bytes, count, s, a, b));
        let _ = (
            header(&bytes),
            extension(&bytes, true),
            extension(&bytes, false),
            group(&bytes, place),
        );
        let (offset, length) = row_body(&bytes, &rows, random.below(4));
        assert!(bytes.get(offset..offset + length).is_some());
        let exists = row_exists(&bytes, &rows, place);
        assert!(exists || row_body(&bytes, &rows, place) == (0, 0));
        assert!(next_start_code(&bytes, place) <= bytes.len() as u64);
    }
}
