//! The independent decoder, its answers put as the C interface has them.

use avsplus_sys::{
    Answer, Bin, Context, Golomb, PairBin, Part, PlainBin, SignedNumber, Started, State, AVSPLUS_EDIT_CODE,
    AVSPLUS_EXTENSION_UNIT, AVSPLUS_I_PICTURE, AVSPLUS_NO_KIND, AVSPLUS_NO_LG, AVSPLUS_PB_PICTURE, AVSPLUS_SEQUENCE_END,
    AVSPLUS_SEQUENCE_HEADER, AVSPLUS_SLICE, AVSPLUS_USER_DATA,
};
use independent::{Copyright, Display, Extension, Fault, Header, Refused, Unread};

use crate::decoder::{self, done, hand_over, refused, Decoder, Status};

pub const REFERENCE: Decoder = Decoder {
    name: "independent",
    check: |stream| units(independent::check(stream)),
    file: |stream, rows| units(independent::file(stream, rows)),
    row_exists: |stream, rows, i| independent::row_exists(stream, rows, i as u64),
    row_body,
    group,
    sequence_header,
    extension,
    frame_rate: |code, lent| ratio(independent::frame_rate(code), lent),
    display_ratio: |aspect, lent| ratio(independent::display_ratio(aspect), lent),
    remove_escapes,
    unsigned_golomb,
    signed_golomb,
    fresh_context: || to_context(independent::fresh()),
    start,
    decode,
    decode_pair,
    bypass: |bytes, bits, state| plain(independent::bypass(bytes, bits as u64, from_state(state)), state),
    stuffing: |bytes, bits, state| plain(independent::stuffing(bytes, bits as u64, from_state(state)), state),
    next_lg: |w, lg| independent::table_entry(w, lg).unwrap_or(AVSPLUS_NO_LG),
    next_start_code: |stream, from| independent::next_start_code(stream, from as u64) as usize,
    kind,
};

/// The answer for a stream with so many units, or its refusal.
fn units(checked: Result<u64, Refused>) -> Answer {
    match checked {
        Ok(units) => done(units as usize),
        Err(refusal) => stream_refused(refusal),
    }
}

fn stream_refused(refusal: Refused) -> Answer {
    let bit = refusal.bit.map(|bit| bit as usize);
    refused(refusal.number, refusal.place as usize, bit)
}

/// The refusal of a single body, which has no offset.
fn body_refused(fault: Fault) -> Answer {
    refused(fault.number, 0, fault.bit.map(|bit| bit as usize))
}

fn row_body(stream: &[u8], rows: &[u32], i: usize) -> Part {
    let (offset, length) = independent::row_body(stream, rows, i as u64);
    Part { offset, length }
}

/// The header's numbers, then those of the display extension where it is given.
fn group(stream: &[u8], g: usize, lent: &mut [u64]) -> Answer {
    match independent::group(stream, g as u64) {
        Ok((header, display)) => {
            let display = display.map_or(vec![], |display| display_numbers(&display));
            hand_over(&[header_numbers(&header), display].concat(), lent)
        }
        Err(refusal) => stream_refused(refusal),
    }
}

fn wide(numbers: &[u32]) -> Vec<u64> {
    numbers.iter().map(|&number| u64::from(number)).collect()
}

fn header_numbers(header: &Header) -> Vec<u64> {
    wide(&[
        header.profile,
        header.level,
        header.progressive,
        header.horizontal,
        header.vertical,
        header.chroma,
        header.precision,
        header.aspect,
        header.rate,
        header.bitrate,
        header.delay,
        header.buffer,
        independent::macroblock_columns(header),
        independent::macroblock_rows(header),
    ])
}

/// Three more where the colour is given.
fn display_numbers(display: &Display) -> Vec<u64> {
    let mut numbers = vec![display.format, display.range, display.width, display.height, display.stereo];
    numbers.extend(display.colour.into_iter().flatten());
    wide(&numbers)
}

fn sequence_header(body: &[u8], lent: &mut [u64]) -> Answer {
    match independent::header(body) {
        Ok(header) => hand_over(&header_numbers(&header), lent),
        Err(fault) => body_refused(fault),
    }
}

fn extension(body: &[u8], in_head: bool, lent: &mut [u64]) -> Answer {
    match independent::extension(body, in_head) {
        Ok(extension) => hand_over(&extension_numbers(&extension), lent),
        Err(fault) => body_refused(fault),
    }
}

/// The extension's own number, 2 for a display and 4 for a copyright extension, then what it says.
fn extension_numbers(extension: &Extension) -> Vec<u64> {
    match *extension {
        Extension::Display(display) => [vec![2], display_numbers(&display)].concat(),
        Extension::Copyright(Copyright {
            flag,
            owner,
            original,
            number,
        }) => vec![4, flag.into(), owner.into(), original.into(), number],
        Extension::Opaque(number) => wide(&[number]),
    }
}

fn ratio(ratio: Option<(u32, u32)>, lent: &mut [u64]) -> Answer {
    hand_over(&ratio.map_or(vec![], |(above, below)| wide(&[above, below])), lent)
}

fn remove_escapes(payload: &[u8], output: &mut [u8]) -> Answer {
    match independent::unescape(payload, output) {
        Ok(bits) => done(bits as usize),
        Err(status) => refused(status, 0, None),
    }
}

fn unread(refusal: Unread) -> Status {
    Status {
        number: refusal.number,
        missing: refusal.missing.unwrap_or(0),
    }
}

fn unsigned_golomb(bytes: &[u8], bits: usize, place: usize) -> Golomb {
    let read = independent::golomb(bytes, bits as u64, place as u64).map_err(unread);
    decoder::golomb(read.map(|(number, after)| (number, after as usize)), place)
}

fn signed_golomb(bytes: &[u8], bits: usize, place: usize) -> SignedNumber {
    let read = independent::signed_golomb(bytes, bits as u64, place as u64).map_err(unread);
    decoder::signed_number(read.map(|(number, after)| (number, after as usize)), place)
}

fn from_state(state: State) -> independent::State {
    independent::State {
        rs: state.rs.into(),
        rt: state.rt.into(),
        vs: state.vs.into(),
        vt: state.vt.into(),
        place: state.place as u64,
    }
}

/// A field as a 32-bit word; what does not fit becomes the largest, so that it stays out of range.
fn word(field: u64) -> u32 {
    u32::try_from(field).unwrap_or(u32::MAX)
}

pub(crate) fn to_state(state: independent::State) -> State {
    State {
        rs: word(state.rs),
        rt: word(state.rt),
        vs: word(state.vs),
        vt: word(state.vt),
        place: state.place as usize,
    }
}

fn from_context(context: Context) -> independent::Context {
    independent::Context {
        mps: context.mps.into(),
        lg: context.lg.into(),
        cycno: context.cycno.into(),
    }
}

pub(crate) fn to_context(context: independent::Context) -> Context {
    Context {
        mps: word(context.mps),
        lg: word(context.lg),
        cycno: word(context.cycno),
    }
}

fn start(bytes: &[u8], bits: usize, state: State) -> Started {
    let started = independent::start(bytes, bits as u64).map_err(unread);
    decoder::started(started.map(to_state), state)
}

/// Status and bin of the independent decoder's answer.
fn bin<T>(decoded: &Result<T, Unread>, of: impl FnOnce(&T) -> u32) -> (Status, u32) {
    decoder::bin(decoded.as_ref().map(of).map_err(|refusal| unread(*refusal)))
}

fn decode(bytes: &[u8], bits: usize, state: State, context: Context) -> Bin {
    let decoded = independent::decode(bytes, bits as u64, from_state(state), from_context(context));
    let (status, bin) = bin(&decoded, |(bin, _, _)| *bin);
    let (state, context) = decoded.map_or((state, context), |(_, s, c)| (to_state(s), to_context(c)));
    Bin {
        status: status.number,
        missing: status.missing,
        bin,
        state,
        context,
    }
}

fn decode_pair(bytes: &[u8], bits: usize, state: State, first: Context, second: Context) -> PairBin {
    let (a, b) = (from_context(first), from_context(second));
    let decoded = independent::decode_pair(bytes, bits as u64, from_state(state), a, b);
    let (status, bin) = bin(&decoded, |(bin, _, _, _)| *bin);
    let (state, first, second) = decoded.map_or((state, first, second), |(_, s, a, b)| {
        (to_state(s), to_context(a), to_context(b))
    });
    PairBin {
        status: status.number,
        missing: status.missing,
        bin,
        state,
        first,
        second,
    }
}

fn plain(decoded: Result<(u32, independent::State), Unread>, state: State) -> PlainBin {
    let (status, bin) = bin(&decoded, |(bin, _)| *bin);
    let state = decoded.map_or(state, |(_, after)| to_state(after));
    PlainBin {
        status: status.number,
        missing: status.missing,
        bin,
        state,
    }
}

fn kind(code: u8) -> u32 {
    match independent::kind(code) {
        Some("slice") => AVSPLUS_SLICE,
        Some("sequence header") => AVSPLUS_SEQUENCE_HEADER,
        Some("sequence end") => AVSPLUS_SEQUENCE_END,
        Some("user data") => AVSPLUS_USER_DATA,
        Some("I picture") => AVSPLUS_I_PICTURE,
        Some("extension") => AVSPLUS_EXTENSION_UNIT,
        Some("P or B picture") => AVSPLUS_PB_PICTURE,
        Some("edit code") => AVSPLUS_EDIT_CODE,
        _ => AVSPLUS_NO_KIND,
    }
}
