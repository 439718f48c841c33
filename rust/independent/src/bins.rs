//! Section "Bins": the arithmetic decoder, state in, state out.

use crate::bits::Payload;
use crate::refusals::{unread, Unread, BAD_STATE};

/// rS, rT, valueS, valueT and the bit place.
#[derive(Clone, Copy, Debug, PartialEq, Eq)]
pub struct State {
    pub rs: u64,
    pub rt: u64,
    pub vs: u64,
    pub vt: u64,
    pub place: u64,
}

#[derive(Clone, Copy, Debug, PartialEq, Eq)]
pub struct Context {
    pub mps: u64,
    pub lg: u64,
    pub cycno: u64,
}

/// What a bin is predicted from: the likely value and the lg of the other one.
struct Prediction {
    mps: u64,
    lg: u64,
}

const LG_MIN: u64 = 4;
const LG_MAX: u64 = 1023;
const VALUE_S_MAX: u64 = 524_288;
const BYPASS: Prediction = Prediction { mps: 0, lg: LG_MAX };
const STUFFING: Prediction = Prediction { mps: 0, lg: LG_MIN };

pub fn fresh() -> Context {
    Context {
        mps: 0,
        lg: LG_MAX,
        cycno: 0,
    }
}

fn good_context(c: &Context) -> bool {
    c.mps <= 1 && LG_MIN <= c.lg && c.lg <= LG_MAX && c.cycno <= 3
}

fn good_state(s: &State, count: u64) -> bool {
    s.rs <= s.vs && s.vs <= VALUE_S_MAX && s.rt <= 255 && s.vt <= 255 && s.place <= count
}

/// TOO LONG, then BAD STATE.
fn open<'a>(bytes: &'a [u8], count: u64, s: &State, contexts: &[Context]) -> Result<Payload<'a>, Unread> {
    let payload = Payload::open(bytes, count, s.place)?;
    if !good_state(s, payload.count) || !contexts.iter().all(good_context) {
        return Err(unread(BAD_STATE));
    }
    Ok(payload)
}

/// Doubles valueT until it is at least 256; answers valueS and valueT mod 256.
fn normalise(payload: &mut Payload, mut value: u64) -> Result<(u64, u64), Unread> {
    let mut doublings = 0;
    while value < 256 {
        value = 2 * value + payload.read(1)?;
        doublings += 1;
    }
    Ok((doublings, value % 256))
}

pub fn start(bytes: &[u8], count: u64) -> Result<State, Unread> {
    let mut payload = Payload::open(bytes, count, 0)?;
    let value = payload.read(9)?;
    let (vs, vt) = normalise(&mut payload, value)?;
    Ok(State {
        rs: 0,
        rt: 255,
        vs,
        vt,
        place: payload.place,
    })
}

/// One bin from a state within its ranges.
fn bin(payload: &mut Payload, state: State, predicted: &Prediction) -> Result<(u64, State), Unread> {
    let q = predicted.lg / 4;
    let borrow = state.rt < q; // the document's second case
    let (s, t) = if borrow {
        (state.rs + 1, 256 + state.rt - q)
    } else {
        (state.rs, state.rt - q)
    };
    let unlikely = s > state.vs || (s == state.vs && state.vt >= t);
    if !unlikely {
        return Ok((predicted.mps, State { rs: s, rt: t, ..state }));
    }
    let mut range = if borrow { state.rt + q } else { q };
    let mut value = if s == state.vs {
        state.vt - t
    } else {
        256 + 2 * state.vt + payload.read(1)? - t
    };
    while range < 256 {
        range *= 2;
        value = 2 * value + payload.read(1)?;
    }
    let (vs, vt) = normalise(payload, value)?;
    let after = State {
        rs: 0,
        rt: range % 256,
        vs,
        vt,
        place: payload.place,
    };
    Ok((1 - predicted.mps, after))
}

/// What lg becomes with a bin that is mps: it loses two parts, by w.
fn next_lg(w: u32, lg: u64) -> u64 {
    lg - lg / (1 << w) - lg / (1 << (w + 2))
}

/// Request E9's tables: for a w of 3, 4 or 5 the next lg of every lg below 1,024.
pub fn table_entry(w: u32, lg: u32) -> Option<u32> {
    let in_table = (3..=5).contains(&w) && u64::from(lg) <= LG_MAX;
    in_table.then(|| next_lg(w, lg.into()) as u32)
}

/// A context after a bin; w is by the cycno before the step.
fn update(c: Context, bin: u64) -> Context {
    let (w, gain) = match c.cycno {
        0 | 1 => (3, 197),
        2 => (4, 95),
        _ => (5, 46),
    };
    if bin == c.mps {
        return Context {
            mps: c.mps,
            lg: next_lg(w, c.lg),
            cycno: c.cycno.max(1),
        };
    }
    let cycno = (c.cycno + 1).min(3);
    let lg = c.lg + gain;
    if lg > LG_MAX {
        return Context {
            mps: 1 - c.mps,
            lg: 2047 - lg,
            cycno,
        };
    }
    Context { mps: c.mps, lg, cycno }
}

/// One bin with one context.
pub fn decode(bytes: &[u8], count: u64, s: State, c: Context) -> Result<(u32, State, Context), Unread> {
    let mut payload = open(bytes, count, &s, &[c])?;
    let (value, after) = bin(&mut payload, s, &Prediction { mps: c.mps, lg: c.lg })?;
    Ok((value as u32, after, update(c, value)))
}

/// What two contexts predict together.
fn joint(a: &Context, b: &Context) -> Prediction {
    if a.mps == b.mps {
        return Prediction {
            mps: a.mps,
            lg: (a.lg + b.lg) / 2,
        };
    }
    let mps = if a.lg < b.lg { a.mps } else { b.mps };
    Prediction {
        mps,
        lg: LG_MAX - a.lg.abs_diff(b.lg) / 2,
    }
}

/// One bin with two contexts; both are then updated.
pub fn decode_pair(
    bytes: &[u8],
    count: u64,
    s: State,
    a: Context,
    b: Context,
) -> Result<(u32, State, Context, Context), Unread> {
    let mut payload = open(bytes, count, &s, &[a, b])?;
    let (value, after) = bin(&mut payload, s, &joint(&a, &b))?;
    Ok((value as u32, after, update(a, value), update(b, value)))
}

/// One bin with a fixed prediction and no context.
fn fixed(bytes: &[u8], count: u64, s: State, predicted: &Prediction) -> Result<(u32, State), Unread> {
    let mut payload = open(bytes, count, &s, &[])?;
    let (value, after) = bin(&mut payload, s, predicted)?;
    Ok((value as u32, after))
}

pub fn bypass(bytes: &[u8], count: u64, s: State) -> Result<(u32, State), Unread> {
    fixed(bytes, count, s, &BYPASS)
}

pub fn stuffing(bytes: &[u8], count: u64, s: State) -> Result<(u32, State), Unread> {
    fixed(bytes, count, s, &STUFFING)
}
