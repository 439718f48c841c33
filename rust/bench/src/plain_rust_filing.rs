//! Filing in plain Rust: two passes, unit by unit, with bodies read by a bit reader.
use crate::library::{Answer, NO_BIT};
use crate::plain_rust::{next_by_three, status};

const LONGEST_STREAM: usize = 16_777_216;

/// Why a unit is refused, with the bit of its body where a marker or a field is.
struct Refusal {
    status: u32,
    bit: usize,
}

impl From<u32> for Refusal {
    /// One that has no bit.
    fn from(status: u32) -> Refusal {
        Refusal { status, bit: NO_BIT }
    }
}

fn refused<T>(status: u32, bit: usize) -> Result<T, Refusal> {
    Err(Refusal { status, bit })
}

// ── bodies ──

/// A body's bits from the left: its length is tested before.
struct BitReader<'a> {
    bytes: &'a [u8],
    place: usize,
}

impl BitReader<'_> {
    fn take(&mut self, mut width: usize) -> u32 {
        let mut value = 0;
        while 0 < width {
            let left = 8 - self.place % 8;
            let n = width.min(left);
            let byte = u32::from(self.bytes[self.place / 8]);
            value = value << n | byte >> (left - n) & ((1 << n) - 1);
            self.place += n;
            width -= n;
        }
        value
    }

    /// A field that is refused with a status where it is not allowed.
    fn judged(&mut self, width: usize, status: u32, allowed: impl Fn(u32) -> bool) -> Result<u32, Refusal> {
        let bit = self.place;
        let value = self.take(width);
        if allowed(value) {
            Ok(value)
        } else {
            refused(status, bit)
        }
    }

    fn marker(&mut self) -> Result<u32, Refusal> {
        self.judged(1, status::MARKER, |one| one == 1)
    }
}

/// The last byte of the fields and what follows it.
fn stuffed(end: &[u8]) -> Result<(), Refusal> {
    if end[0] == 128 && end[1..].iter().all(|&byte| byte == 0) {
        return Ok(());
    }
    Err(status::STUFFING.into())
}

// Records as a caller would want them, though filing asks for progressive and the vertical size alone.
#[allow(dead_code)]
struct Header {
    profile: u32,
    level: u32,
    progressive: u32,
    horizontal: u32,
    vertical: u32,
    chroma: u32,
    precision: u32,
    aspect: u32,
    rate: u32,
    bitrate: u32,
    delay: u32,
    buffer: u32,
}

fn read_header(body: &[u8]) -> Result<Header, Refusal> {
    if body.len() < 15 {
        return Err(status::SHORT.into());
    }
    let mut bits = BitReader { bytes: body, place: 0 };
    let (profile, level, progressive) = (bits.take(8), bits.take(8), bits.take(1));
    let horizontal = bits.judged(14, status::VALUE_WIDTH, |size| size != 0)?;
    let vertical = bits.judged(14, status::VALUE_HEIGHT, |size| size != 0)?;
    let chroma = bits.judged(2, status::VALUE_CHROMA, |chroma| (1..=2).contains(&chroma))?;
    let precision = bits.judged(3, status::VALUE_PRECISION, |precision| precision == 1)?;
    let aspect = bits.judged(4, status::VALUE_ASPECT, |aspect| (1..=4).contains(&aspect))?;
    let rate = bits.judged(4, status::VALUE_RATE, |rate| (1..=8).contains(&rate))?;
    let low = bits.take(18);
    bits.marker()?;
    let bitrate = bits.take(12) << 18 | low;
    let delay = bits.take(1);
    bits.marker()?;
    let buffer = bits.take(18);
    stuffed(&body[14..])?;
    Ok(Header {
        profile,
        level,
        progressive,
        horizontal,
        vertical,
        chroma,
        precision,
        aspect,
        rate,
        bitrate,
        delay,
        buffer,
    })
}

#[allow(dead_code)]
struct Display {
    format: u32,
    range: u32,
    colour: Option<(u32, u32, u32)>,
    width: u32,
    height: u32,
    stereo: u32,
}

fn display_short(body: &[u8]) -> bool {
    body.len() < 6 || (128 <= body[1] && body.len() < 9)
}

fn read_display(body: &[u8]) -> Result<Display, Refusal> {
    if display_short(body) {
        return Err(status::SHORT.into());
    }
    let mut bits = BitReader { bytes: body, place: 4 };
    let (format, range) = (bits.take(3), bits.take(1));
    let mut colour = None;
    if bits.take(1) == 1 {
        let primaries = bits.take(8);
        let transfer = bits.judged(8, status::VALUE_TRANSFER, |transfer| !matches!(transfer, 0 | 3 | 11..))?;
        let matrix = bits.judged(8, status::VALUE_MATRIX, |matrix| !matches!(matrix, 0 | 3 | 8..))?;
        colour = Some((primaries, transfer, matrix));
    }
    let width = bits.take(14);
    bits.marker()?;
    let height = bits.take(14);
    let stereo = bits.judged(2, status::VALUE_STEREO, |stereo| stereo != 3)?;
    stuffed(&body[bits.place / 8..])?;
    Ok(Display {
        format,
        range,
        colour,
        width,
        height,
        stereo,
    })
}

#[allow(dead_code)]
struct Copyright {
    flag: u32,
    owner: u32,
    original: u32,
    number: u64,
}

fn read_copyright(body: &[u8]) -> Result<Copyright, Refusal> {
    if body.len() < 12 {
        return Err(status::SHORT.into());
    }
    let mut bits = BitReader { bytes: body, place: 4 };
    let (flag, owner, original) = (bits.take(1), bits.take(8), bits.take(1));
    bits.take(7);
    bits.marker()?;
    let mut number = u64::from(bits.take(20));
    for _ in 0..2 {
        bits.marker()?;
        number = number << 22 | u64::from(bits.take(22));
    }
    if flag == 0 && owner != 0 {
        return refused(status::VALUE_COPYRIGHT_OWNER, 5);
    }
    if owner == 0 && number != 0 {
        return refused(status::VALUE_COPYRIGHT_NUMBER, 22);
    }
    stuffed(&body[11..])?;
    Ok(Copyright {
        flag,
        owner,
        original,
        number,
    })
}

#[allow(dead_code)]
enum Extension {
    Display(Display),
    Copyright(Copyright),
    Opaque,
}

fn read_extension(body: &[u8], in_head: bool) -> Result<Extension, Refusal> {
    match body.first().ok_or(status::SHORT)? >> 4 {
        4 => read_copyright(body).map(Extension::Copyright),
        2 if in_head => read_display(body).map(Extension::Display),
        _ => Ok(Extension::Opaque),
    }
}

/// Whether a good extension is opaque, by its number alone.
fn is_opaque(body: &[u8], in_head: bool) -> bool {
    let number = body[0] >> 4;
    number != 4 && !(number == 2 && in_head)
}

// ── one unit ──

#[derive(Clone, Copy)]
struct SliceRule {
    tested: bool,
    rows: u32,
}

#[derive(Clone, Copy)]
enum State {
    Start,
    Head(SliceRule, bool),
    Picture(SliceRule),
    Slices(SliceRule, u32),
    Ended,
    Closed,
}

fn header_step(body: &[u8]) -> Result<State, Refusal> {
    let Header {
        progressive, vertical, ..
    } = read_header(body)?;
    let rows = match progressive {
        0 => 2 * ((vertical + 31) / 32),
        _ => (vertical + 15) / 16,
    };
    let rule = SliceRule {
        tested: vertical <= 2800,
        rows,
    };
    Ok(State::Head(rule, false))
}

fn head_extension(rule: SliceRule, display: bool, body: &[u8]) -> Result<State, Refusal> {
    let is_display = body.first().map_or(false, |byte| byte >> 4 == 2);
    if is_display && display && !display_short(body) {
        return Err(status::TWICE.into());
    }
    read_extension(body, true).map(|_| State::Head(rule, display || is_display))
}

fn not_all_zero(body: &[u8]) -> Result<(), Refusal> {
    if body.iter().all(|&byte| byte == 0) {
        return Err(status::SHORT.into());
    }
    Ok(())
}

fn picture_step(rule: SliceRule, body: &[u8]) -> Result<State, Refusal> {
    not_all_zero(body).map(|()| State::Picture(rule))
}

fn slice_step(rule: SliceRule, least: u32, code: u8, body: &[u8]) -> Result<State, Refusal> {
    not_all_zero(body)?;
    let number = u32::from(code);
    if rule.tested && number < least {
        return refused(status::VALUE_SLICE_ORDER, 0);
    }
    if rule.tested && rule.rows <= number {
        return refused(status::VALUE_SLICE_ROW, 0);
    }
    Ok(State::Slices(rule, number + 1))
}

fn ending_step(body: &[u8], next: State) -> Result<State, Refusal> {
    if body.is_empty() {
        Ok(next)
    } else {
        Err(status::STUFFING.into())
    }
}

fn step_unit(state: State, code: u8, body: &[u8]) -> Result<State, Refusal> {
    match (state, code) {
        (_, 0xB4 | 0xB8..=0xFF) => Err(status::UNKNOWN.into()),
        (State::Start, 0xB0) => header_step(body),
        (State::Head(..), 0xB2) => Ok(state),
        (State::Head(rule, display), 0xB5) => head_extension(rule, display, body),
        (State::Head(rule, _), 0xB3) => picture_step(rule, body),
        (State::Picture(rule), 0x00..=0xAF) => slice_step(rule, 0, code, body),
        (State::Picture(_), 0xB2) => Ok(state),
        (State::Picture(_), 0xB5) => read_extension(body, false).map(|_| state),
        (State::Slices(rule, least), 0x00..=0xAF) => slice_step(rule, least, code, body),
        (State::Slices(rule, _), 0xB3 | 0xB6) => picture_step(rule, body),
        (State::Slices(..), 0xB0) => header_step(body),
        (State::Slices(..), 0xB1) => ending_step(body, State::Ended),
        (State::Slices(..), 0xB7) => ending_step(body, State::Closed),
        (State::Ended, 0xB7) => ending_step(body, State::Closed),
        _ => Err(status::OUT_OF_PLACE.into()),
    }
}

/// The body of a good unit: the whole of user data and opaque extensions.
fn row_length(in_head: bool, code: u8, body: &[u8]) -> usize {
    if code == 0xB2 || code == 0xB5 && is_opaque(body, in_head) {
        return body.len();
    }
    body.iter().rposition(|&byte| byte != 0).map_or(0, |last| last + 1)
}

/// The state after a unit, and where it ends.
fn unit_at(stream: &[u8], state: State, at: usize) -> Result<(State, usize), Refusal> {
    let rest = &stream[at..];
    if !rest.starts_with(&[0, 0, 1]) {
        return Err(status::NO_CODE.into());
    }
    let code = *rest.get(3).ok_or(status::CUT)?;
    if rest[3..].starts_with(&[0, 0, 1]) {
        return Err(status::OVERLAP.into());
    }
    let end = next_by_three(stream, at + 3);
    step_unit(state, code, &stream[at + 4..end]).map(|after| (after, end))
}

// ── filing ──

/// The number of units, or a refusal and its offset.
fn check(stream: &[u8]) -> Result<usize, (Refusal, usize)> {
    if LONGEST_STREAM < stream.len() {
        return Err((status::TOO_LONG.into(), 0));
    }
    if !stream.starts_with(&[0, 0, 1]) {
        return Err((status::NO_CODE.into(), 0));
    }
    let (mut state, mut at, mut units) = (State::Start, 0, 0);
    while at < stream.len() {
        let (after, end) = unit_at(stream, state, at).map_err(|why| (why, at))?;
        state = after;
        at = end;
        units += 1;
    }
    match state {
        State::Ended | State::Closed => Ok(units),
        _ => Err((status::UNENDED.into(), at)),
    }
}

/// No body is read again: of what was checked only heads are to be known.
fn write_rows(stream: &[u8], rows: &mut [u32]) {
    let (mut in_head, mut at) = (false, 0);
    for row in rows.chunks_exact_mut(3) {
        let code = stream[at + 3];
        let end = next_by_three(stream, at + 3);
        let length = row_length(in_head, code, &stream[at + 4..end]);
        row.copy_from_slice(&[u32::from(code), at as u32, length as u32]);
        in_head = code == 0xB0 || in_head && code != 0xB3;
        at = end;
    }
}

#[inline(never)]
pub fn file(stream: &[u8], rows: &mut [u32]) -> Answer {
    let answer = |why: Refusal, offset, count| Answer {
        status: why.status,
        offset,
        count,
        bit: why.bit,
    };
    match check(stream) {
        Ok(units) if rows.len() / 3 < units => answer(status::FULL.into(), 0, 0),
        Ok(units) => {
            write_rows(stream, &mut rows[..units * 3]);
            answer(status::DONE.into(), 0, units)
        }
        Err((why, offset)) => answer(why, offset, 0),
    }
}
