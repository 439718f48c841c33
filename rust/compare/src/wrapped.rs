//! The safe crate, its answers put back as the C interface has them.

use avsplus::{
    DisplayExtension, DisplayRatio, Extension, Group, Kind, Payload, Rate, Ratio, Reason, Recording, Refused, Scope,
    SequenceHeader, Totals, Unit,
};
use avsplus_sys::{
    Answer, Bin, Context, Golomb, PairBin, Part, PlainBin, SignedNumber, Started, State, AVSPLUS_DONE, AVSPLUS_NO_KIND,
    AVSPLUS_NO_LG,
};

use crate::decoder::{self, done, hand_over, refused, Decoder, Status};

/// The functions that lend memory on, one for each of the library's.
pub const WRAPPED: Decoder = Decoder {
    name: "safe crate",
    check: |stream| totals(avsplus::check(stream)),
    file,
    row_exists: |stream, rows, i| avsplus::row_exists(stream, rows, i) == Ok(true),
    row_body,
    group: |stream, g, lent| group(avsplus::group(stream, g), lent),
    sequence_header,
    extension,
    frame_rate: |code, lent| ratio(avsplus::frame_rate(code), lent),
    display_ratio: |aspect, lent| ratio(avsplus::display_ratio(aspect).map(shown_ratio), lent),
    remove_escapes,
    unsigned_golomb,
    signed_golomb,
    fresh_context: || to_context(avsplus::Context::FRESH),
    start,
    decode,
    decode_pair,
    bypass: |bytes, bits, state| plain(|payload, state| payload.bypass(state), bytes, bits, state),
    stuffing: |bytes, bits, state| plain(|payload, state| payload.stuffing(state), bytes, bits, state),
    next_lg,
    // No stream is so long: a refusal is a difference.
    next_start_code: |stream, from| avsplus::next_start_code(stream, from).unwrap_or(usize::MAX),
    kind: |code| Kind::of(code).map_or(AVSPLUS_NO_KIND, Kind::number),
};

/// The same with rows and groups taken from a filed recording and its units: groups by number where an odd room is lent, else
/// among all groups.
pub const RECORDING: Decoder = Decoder {
    name: "safe crate's recording",
    check: |stream| totals(avsplus::file(stream).map(|recording| recording.totals())),
    file: recording_rows,
    group: |stream, g, lent| match lent.len() % 2 {
        0 => group(recording_groups(stream, g), lent),
        _ => group(recording_group(stream, g), lent),
    },
    ..WRAPPED
};

/// What the independent decoder names a judged field's refusal.
const VALUE_OF: &str = "VALUE of ";

/// The status of a refusal; a reason without a number, or with a field that is not its number's, is a difference.
fn status(refusal: Refused) -> u32 {
    let number = refusal.reason.number().unwrap_or(u32::MAX);
    let field = independent::name(number).and_then(|name| name.strip_prefix(VALUE_OF));
    if refusal.reason.field().map(|field| field.name()) == field {
        number
    } else {
        u32::MAX
    }
}

/// The status of a number, a start or a bin that is refused. Such a refusal has neither offset nor bit: either is a difference.
fn unread(refusal: Refused) -> Status {
    let number = match (refusal.offset, refusal.reason.bit()) {
        (None, None) => status(refusal),
        _ => u32::MAX,
    };
    let missing = match refusal.reason {
        Reason::PayloadOut { missing } => missing,
        _ => 0,
    };
    Status { number, missing }
}

/// The units of a filed stream, or its refusal.
fn totals(filed: Result<Totals, Refused>) -> Answer {
    filed.map_or_else(stream_refused, |totals| done(totals.units))
}

/// A refusal with its offset, or without one.
fn stream_refused(refusal: Refused) -> Answer {
    refused(status(refusal), refusal.offset.unwrap_or(0), refusal.reason.bit())
}

/// A refusal of a body or of a payload, which has no offset: one is a difference.
fn body_refused(refusal: Refused) -> Answer {
    let offset = refusal.offset.map_or(0, |_| usize::MAX);
    refused(status(refusal), offset, refusal.reason.bit())
}

fn file(stream: &[u8], rows: &mut [u32]) -> Answer {
    totals(avsplus::file_into(stream, rows))
}

/// Where a part lies in the stream by its address, so that a copy is found out.
fn part(stream: &[u8], body: &[u8]) -> Part {
    Part {
        offset: (body.as_ptr() as usize).wrapping_sub(stream.as_ptr() as usize),
        length: body.len(),
    }
}

fn row_body(stream: &[u8], rows: &[u32], i: usize) -> Part {
    let none = Part { offset: 0, length: 0 };
    avsplus::row_body(stream, rows, i).map_or(none, |body| part(stream, body))
}

/// A unit's row; the offset is that of its body, less the start code and its code byte, where the unit says the same.
fn row(stream: &[u8], unit: &Unit) -> [u32; 3] {
    let body = part(stream, unit.body);
    let same = body.offset == unit.offset + 4 && Some(unit.kind) == Kind::of(unit.code) && zeros_follow(stream, unit);
    let offset = if same { unit.offset as u32 } else { u32::MAX };
    [unit.code.into(), offset, body.length as u32]
}

/// After a unit's body stand the zeros that it counts, and then the next unit or the stream's end.
fn zeros_follow(stream: &[u8], unit: &Unit) -> bool {
    let after = &stream[unit.offset + 4 + unit.body.len()..];
    match after.get(..unit.trailing_zeros) {
        Some(zeros) if zeros.iter().all(|&byte| byte == 0) => {
            let rest = &after[zeros.len()..];
            rest.is_empty() || rest.starts_with(&[0, 0, 1])
        }
        _ => false,
    }
}

/// Whether each unit says the group and the head it stands in, by the kinds of the units up to it.
fn well_placed(recording: &Recording) -> bool {
    let (mut group, mut in_head) = (None, false);
    recording.units().enumerate().all(|(i, unit)| {
        match unit.kind {
            Kind::SequenceHeader => (group, in_head) = (Some(group.map_or(0, |g| g + 1)), true),
            Kind::IPicture | Kind::PbPicture => in_head = false,
            Kind::SequenceEnd | Kind::EditCode => group = None,
            Kind::Slice | Kind::UserData | Kind::Extension => {}
        }
        (unit.index, unit.group, unit.in_head) == (i, group, in_head)
    })
}

/// Rows of the units taken from both ends in turn.
fn recording_rows(stream: &[u8], lent: &mut [u32]) -> Answer {
    let recording = match avsplus::file(stream) {
        Ok(recording) => recording,
        Err(refusal) => return stream_refused(refusal),
    };
    if !well_placed(&recording) {
        return refused(u32::MAX, 0, None);
    }
    let mut units = recording.units();
    let (mut rows, mut from_end) = (Vec::new(), Vec::new());
    while let Some(unit) = units.next() {
        rows.push(row(stream, &unit));
        from_end.extend(units.next_back().map(|unit| row(stream, &unit)));
    }
    rows.extend(from_end.iter().rev());
    let answer = hand_over(&rows.concat(), lent);
    match answer.status {
        AVSPLUS_DONE => done(recording.units().len()),
        _ => answer,
    }
}

/// A group asked for by its number.
fn recording_group(stream: &[u8], g: usize) -> Result<Group, Refused> {
    avsplus::file(stream)?.group(g)
}

/// A group met among all groups, from the end on.
fn recording_groups(stream: &[u8], g: usize) -> Result<Group, Refused> {
    let recording = avsplus::file(stream)?;
    let after = recording.groups().len().checked_sub(g).and_then(|left| left.checked_sub(1));
    match after {
        Some(after) => recording.groups().rev().nth(after).expect("there are as many as it says"),
        None => recording.group(g),
    }
}

fn group(group: Result<Group, Refused>, lent: &mut [u64]) -> Answer {
    match group {
        Ok(group) => hand_over(&group_numbers(&group), lent),
        Err(refusal) => stream_refused(refusal),
    }
}

fn group_numbers(group: &Group) -> Vec<u64> {
    let mut numbers = header_numbers(&group.header);
    numbers.extend(group.display.iter().flat_map(display_numbers));
    numbers
}

fn header_numbers(header: &SequenceHeader) -> Vec<u64> {
    vec![
        header.profile.into(),
        header.level.into(),
        header.progressive.into(),
        header.horizontal_size.into(),
        header.vertical_size.into(),
        header.chroma_format.into(),
        header.precision.into(),
        header.aspect.into(),
        header.frame_rate_code.into(),
        header.bit_rate.into(),
        header.low_delay.into(),
        header.buffer_size.into(),
        header.macroblock_columns.into(),
        header.macroblock_rows.into(),
    ]
}

fn display_numbers(display: &DisplayExtension) -> Vec<u64> {
    let mut numbers: Vec<u64> = vec![
        display.format.into(),
        display.range.into(),
        display.width.into(),
        display.height.into(),
        display.stereo.into(),
    ];
    if let Some(colour) = display.colour {
        numbers.extend([colour.primaries, colour.transfer, colour.matrix].map(u64::from));
    }
    numbers
}

fn sequence_header(body: &[u8], lent: &mut [u64]) -> Answer {
    match avsplus::sequence_header(body) {
        Ok(header) => hand_over(&header_numbers(&header), lent),
        Err(refusal) => body_refused(refusal),
    }
}

fn extension(body: &[u8], in_head: bool, lent: &mut [u64]) -> Answer {
    let scope = if in_head { Scope::Head } else { Scope::Picture };
    match avsplus::extension(body, scope) {
        Ok(extension) => hand_over(&extension_numbers(&extension), lent),
        Err(refusal) => body_refused(refusal),
    }
}

fn extension_numbers(extension: &Extension) -> Vec<u64> {
    match *extension {
        Extension::Display(ref display) => [vec![2], display_numbers(display)].concat(),
        Extension::Copyright(c) => vec![4, c.flag.into(), c.owner.into(), c.original.into(), c.number],
        Extension::Opaque(number) => vec![number.into()],
    }
}

/// The ratio that an aspect gives: square samples are none.
fn shown_ratio(says: Option<DisplayRatio>) -> Option<Ratio> {
    match says {
        Some(DisplayRatio::Ratio(ratio)) => Some(ratio),
        Some(DisplayRatio::SquareSamples) | None => None,
    }
}

fn ratio(ratio: Result<Option<Ratio>, Refused>, lent: &mut [u64]) -> Answer {
    match ratio {
        Ok(Some(ratio)) => hand_over(&[ratio.numerator.into(), ratio.denominator.into()], lent),
        Ok(None) => done(0),
        Err(refusal) => body_refused(refusal),
    }
}

/// Into lent memory where there is some beside the payload's own length, else by way of a payload of its own.
fn remove_escapes(raw: &[u8], output: &mut [u8]) -> Answer {
    if raw.len() != output.len() {
        return avsplus::remove_escapes_into(raw, output).map_or_else(body_refused, |payload| done(payload.bits()));
    }
    match avsplus::remove_escapes(raw) {
        Ok(payload) => {
            output[..payload.bytes().len()].copy_from_slice(payload.bytes());
            done(payload.bits())
        }
        Err(refusal) => body_refused(refusal),
    }
}

fn unsigned_golomb(bytes: &[u8], bits: usize, place: usize) -> Golomb {
    decoder::golomb(Payload::first_bits(bytes, bits).unsigned_golomb(place).map_err(unread), place)
}

fn signed_golomb(bytes: &[u8], bits: usize, place: usize) -> SignedNumber {
    decoder::signed_number(Payload::first_bits(bytes, bits).signed_golomb(place).map_err(unread), place)
}

fn from_state(state: State) -> avsplus::State {
    let State { rs, rt, vs, vt, place } = state;
    avsplus::State { rs, rt, vs, vt, place }
}

fn to_state(state: avsplus::State) -> State {
    let avsplus::State { rs, rt, vs, vt, place } = state;
    State { rs, rt, vs, vt, place }
}

fn from_context(context: Context) -> avsplus::Context {
    let Context { mps, lg, cycno } = context;
    avsplus::Context { mps, lg, cycno }
}

fn to_context(context: avsplus::Context) -> Context {
    let avsplus::Context { mps, lg, cycno } = context;
    Context { mps, lg, cycno }
}

/// No type has a rate with another w, so that the crate has no answer for one.
fn next_lg(w: u32, lg: u32) -> u32 {
    let rate = Rate::ALL.into_iter().find(|rate| rate.w() == w);
    // No table has such an entry: a refusal is a difference.
    let entry = rate
        .map_or(Ok(None), |rate| rate.next_lg(lg))
        .unwrap_or(Some(lg.wrapping_add(1)));
    entry.unwrap_or(AVSPLUS_NO_LG)
}

fn start(bytes: &[u8], bits: usize, state: State) -> Started {
    let started = Payload::first_bits(bytes, bits).start();
    decoder::started(started.map(to_state).map_err(unread), state)
}

/// Status and bin of the safe crate's answer.
fn bin(decoded: Result<bool, Refused>) -> (Status, u32) {
    decoder::bin(decoded.map(u32::from).map_err(unread))
}

fn decode(bytes: &[u8], bits: usize, state: State, context: Context) -> Bin {
    let (mut state, mut context) = (from_state(state), from_context(context));
    let (status, bin) = bin(Payload::first_bits(bytes, bits).decode(&mut state, &mut context));
    Bin {
        status: status.number,
        missing: status.missing,
        bin,
        state: to_state(state),
        context: to_context(context),
    }
}

fn decode_pair(bytes: &[u8], bits: usize, state: State, first: Context, second: Context) -> PairBin {
    let (mut state, mut first, mut second) = (from_state(state), from_context(first), from_context(second));
    let decoded = Payload::first_bits(bytes, bits).decode_pair(&mut state, &mut first, &mut second);
    let (status, bin) = bin(decoded);
    PairBin {
        status: status.number,
        missing: status.missing,
        bin,
        state: to_state(state),
        first: to_context(first),
        second: to_context(second),
    }
}

type Plain = for<'a> fn(&Payload<'a>, &mut avsplus::State) -> Result<bool, Refused>;

fn plain(decode: Plain, bytes: &[u8], bits: usize, state: State) -> PlainBin {
    let mut state = from_state(state);
    let (status, bin) = bin(decode(&Payload::first_bits(bytes, bits), &mut state));
    PlainBin {
        status: status.number,
        missing: status.missing,
        bin,
        state: to_state(state),
    }
}
