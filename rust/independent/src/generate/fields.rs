//! Bodies in which whatever is judged goes through its values one by one, and streams that hold such a body. Unlike the other
//! inputs these are the same in every run.

use super::bodies::{
    good_copyright, good_display, good_header, set, Field, Layout, Scan, COLOUR_DISPLAY, COPYRIGHT, DISPLAY, HEADER,
};
use super::random::Random;

/// A body, with the code byte of its unit.
#[derive(Clone, Debug)]
pub struct Body {
    pub code: u8,
    pub bytes: Vec<u8>,
}

/// A layout, with its unit's code byte and what makes good bodies of it.
struct Kind {
    code: u8,
    layout: &'static Layout,
    good: fn(&mut Random) -> Vec<u8>,
}

const KINDS: [Kind; 4] = [
    Kind {
        code: 0xB0,
        layout: &HEADER,
        good: any_good_header,
    },
    Kind {
        code: 0xB5,
        layout: &DISPLAY,
        good: |random| good_display(random, false),
    },
    Kind {
        code: 0xB5,
        layout: &COLOUR_DISPLAY,
        good: |random| good_display(random, true),
    },
    Kind {
        code: 0xB5,
        layout: &COPYRIGHT,
        good: good_copyright,
    },
];

fn any_good_header(random: &mut Random) -> Vec<u8> {
    let scan = Scan::any(random);
    good_header(random, scan)
}

impl Kind {
    /// A good body, but for these fields.
    fn with(&self, random: &mut Random, fields: &[(Field, u64)]) -> Body {
        let mut bytes = (self.good)(random);
        fields.iter().for_each(|&(field, value)| set(&mut bytes, field, value));
        Body { code: self.code, bytes }
    }
}

/// The values at and beside those that are ruled out; or every value, but of a wide field only the limits and single bits too.
fn values(width: usize, ruled_out: &[u64], all: bool) -> Vec<u64> {
    let most = (1 << width) - 1;
    if all && width <= 8 {
        return (0..=most).collect();
    }
    let beside = |&value: &u64| [value.saturating_sub(1), value, most.min(value + 1)];
    let mut values: Vec<u64> = ruled_out.iter().flat_map(beside).collect();
    if all {
        values.extend((0..width).map(|i| 1 << i));
        values.push(most);
    }
    values.sort_unstable();
    values.dedup();
    values
}

/// Each judged field at its values.
fn at_values(random: &mut Random, kind: &Kind, all: bool) -> Vec<Body> {
    let judged = kind.layout.judged.iter();
    let fields = judged.flat_map(|&(field, ruled_out)| {
        let values = values(field.1, ruled_out, all).into_iter();
        values.map(move |value| (field, value))
    });
    fields.map(|field| kind.with(random, &[field])).collect()
}

/// All that can be wrong in a layout, once each: fields, markers and the first bit after them.
fn faults(layout: &Layout) -> Vec<(Field, u64)> {
    let fields = layout.judged.iter().map(|&(field, ruled_out)| (field, ruled_out[0]));
    let cleared = layout.markers.iter().copied().chain([layout.bits]);
    fields.chain(cleared.map(|bit| (Field(bit, 1), 0))).collect()
}

/// Each fault alone, and each two in one body.
fn faults_by_two(random: &mut Random, kind: &Kind) -> Vec<Body> {
    let faults = faults(kind.layout);
    let pairs = (0..faults.len()).flat_map(|i| (i..faults.len()).map(move |j| [i, j]));
    pairs.map(|pair| kind.with(random, &pair.map(|i| faults[i]))).collect()
}

/// The three parts of a copyright number.
const PARTS: [Field; 3] = [Field(22, 20), Field(43, 22), Field(66, 22)];

/// Bits of which a copyright number's only 1 is one; those at each part's ends, or all.
fn number_bits(all: bool) -> Vec<usize> {
    let in_part = |&Field(first, width): &Field| first..first + width;
    let at_an_end = |bit: &usize| PARTS.iter().any(|p| *bit == p.0 || *bit + 1 == p.0 + p.1);
    PARTS.iter().flat_map(in_part).filter(|bit| all || at_an_end(bit)).collect()
}

/// Flag, owner and number of a copyright extension, beside each other.
fn rights(random: &mut Random, kind: &Kind, all: bool) -> Vec<Body> {
    let none = PARTS.map(|part| (part, 0));
    let numbers: Vec<Vec<(Field, u64)>> = number_bits(all)
        .into_iter()
        .map(|bit| [&none[..], &[(Field(bit, 1), 1)]].concat())
        .chain([none.to_vec()])
        .collect();
    let owners = [0, 1, 128, 255].iter().flat_map(|&owner| [(0, owner), (1, owner)]);
    let beside = owners.flat_map(|(flag, owner)| {
        let rights = [(Field(4, 1), flag), (Field(5, 8), owner)];
        numbers.iter().map(move |number| [&rights[..], number].concat())
    });
    beside.map(|fields| kind.with(random, &fields)).collect()
}

/// Each judged field at all its values, or at those beside the limits; each fault alone and with each other; and the flag,
/// owner and number of copyright extensions beside each other.
pub fn judged_bodies(all: bool) -> Vec<Body> {
    let mut random = Random::new(0);
    let mut bodies = Vec::new();
    for kind in &KINDS {
        bodies.extend(at_values(&mut random, kind, all));
        bodies.extend(faults_by_two(&mut random, kind));
    }
    bodies.extend(rights(&mut random, &KINDS[3], all));
    bodies
}

fn unit(code: u8, body: &[u8]) -> Vec<u8> {
    [&[0, 0, 1, code], body].concat()
}

/// Streams that hold a body in the first group and in a second one: a sequence header as theirs, an extension in the head and
/// after the picture header.
pub fn streams_with(body: &Body) -> Vec<Vec<u8>> {
    let scan = Scan {
        progressive: 0,
        vertical: 1080,
    };
    let head = unit(0xB0, &good_header(&mut Random::new(0), scan));
    let (picture, slice, end) = (unit(0xB3, &[0x80]), unit(0, &[0x80]), unit(0xB1, &[]));
    let judged = unit(body.code, &body.bytes);
    let groups = match body.code {
        0xB0 => vec![[&judged[..], &picture, &slice].concat()],
        _ => vec![
            [&head[..], &judged, &picture, &slice].concat(),
            [&head[..], &picture, &judged, &slice].concat(),
        ],
    };
    let good = [&head[..], &picture, &slice].concat();
    let streams = groups.iter().flat_map(|group| [[&[], &group[..]], [&good, group]]);
    streams.map(|[before, group]| [before, group, &end].concat()).collect()
}
