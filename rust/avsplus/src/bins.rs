//! Bins: the arithmetic decoder. A refusal leaves states and contexts as they were.

use avsplus_sys as sys;

use crate::calls;
use crate::payload::Payload;
use crate::refused::{was_read, Reason, Refused};

/// Where a bin decoder stands in its payload: a state is good for the payload that gave it.
#[derive(Debug, Clone, Copy, PartialEq, Eq, Hash)]
pub struct State {
    /// rS, at most `vs`.
    pub rs: u32,
    /// rT, at most 255.
    pub rt: u32,
    /// valueS, at most 524,288.
    pub vs: u32,
    /// valueT, at most 255.
    pub vt: u32,
    /// The next bit.
    pub place: usize,
}

impl State {
    fn to_sys(self) -> sys::State {
        let State { rs, rt, vs, vt, place } = self;
        sys::State { rs, rt, vs, vt, place }
    }

    fn from_sys(state: sys::State) -> State {
        let sys::State { rs, rt, vs, vt, place } = state;
        State { rs, rt, vs, vt, place }
    }
}

/// What a context has learned of its bins.
#[derive(Debug, Clone, Copy, PartialEq, Eq, Hash)]
pub struct Context {
    /// The more probable bin, 0 or 1.
    pub mps: u32,
    /// How probable the other bin is, 4 to 1023.
    pub lg: u32,
    /// How fast it learns, 0 to 3.
    pub cycno: u32,
}

impl Context {
    /// A context that has seen no bin.
    pub const FRESH: Context = Context {
        mps: 0,
        lg: 1023,
        cycno: 0,
    };

    fn to_sys(self) -> sys::Context {
        let Context { mps, lg, cycno } = self;
        sys::Context { mps, lg, cycno }
    }

    fn from_sys(context: sys::Context) -> Context {
        let sys::Context { mps, lg, cycno } = context;
        Context { mps, lg, cycno }
    }
}

impl Default for Context {
    fn default() -> Context {
        Context::FRESH
    }
}

impl Payload<'_> {
    /// Starts the bin decoder on the payload. Its first nine bits are one read, and all others are read bit by bit.
    ///
    /// ```
    /// use avsplus::{Context, Payload, Reason};
    ///
    /// let payload = Payload::whole(&[0x80, 0x00]);
    /// let mut state = payload.start()?;
    /// let (before, mut context) = (state, Context::FRESH);
    /// let refused = payload.decode(&mut state, &mut context).unwrap_err();
    /// assert_eq!(refused.reason, Reason::PayloadOut { missing: 1 });
    /// assert_eq!((state, context), (before, Context::FRESH));
    ///
    /// let refused = Payload::first_bits(&[0x80], 6).start().unwrap_err();
    /// assert_eq!(refused.reason, Reason::PayloadOut { missing: 3 });
    /// # Ok::<(), avsplus::Refused>(())
    /// ```
    pub fn start(&self) -> Result<State, Refused> {
        // It comes back where the payload is refused, and is not looked at.
        let nothing = sys::State {
            rs: 0,
            rt: 0,
            vs: 0,
            vt: 0,
            place: 0,
        };
        let started = calls::start(self.bytes(), self.bits(), nothing)?;
        was_read(started.status, started.missing)?;
        Ok(State::from_sys(started.state))
    }

    /// A bin by one context.
    ///
    /// ```
    /// use avsplus::{Context, Payload, State};
    ///
    /// let payload = Payload::whole(&[0x80, 0x40, 0x00]);
    /// let (mut state, mut context) = (payload.start()?, Context::FRESH);
    /// assert_eq!(payload.decode(&mut state, &mut context), Ok(true));
    /// assert_eq!(state, State { rs: 0, rt: 254, vs: 8, vt: 0, place: 18 });
    /// assert_eq!(context, Context { mps: 1, lg: 827, cycno: 1 });
    ///
    /// let payload = Payload::whole(&[0x40, 0x00]);
    /// let (mut state, mut context) = (payload.start()?, Context::FRESH);
    /// let bins = [(); 3].map(|_| payload.decode(&mut state, &mut context));
    /// assert_eq!(bins, [Ok(false), Ok(false), Ok(true)]);
    /// assert_eq!((state.rt, state.vs, state.vt, state.place), (188, 0, 28, 12));
    /// assert_eq!((context.lg, context.cycno), (927, 2));
    /// # Ok::<(), avsplus::Refused>(())
    /// ```
    pub fn decode(&self, state: &mut State, context: &mut Context) -> Result<bool, Refused> {
        let step = calls::decode(self.bytes(), self.bits(), state.to_sys(), context.to_sys())?;
        let bin = bin(step.status, step.missing, step.bin)?;
        *state = State::from_sys(step.state);
        *context = Context::from_sys(step.context);
        Ok(bin)
    }

    /// A bin by two contexts.
    ///
    /// ```
    /// use avsplus::{Context, Payload};
    ///
    /// let payload = Payload::whole(&[0x80, 0x40, 0x00]);
    /// let mut state = payload.start()?;
    /// let (mut first, mut second) = (Context::FRESH, Context::FRESH);
    /// // Two fresh contexts predict what one does.
    /// assert_eq!(payload.decode_pair(&mut state, &mut first, &mut second), Ok(true));
    /// assert_eq!(first, Context { mps: 1, lg: 827, cycno: 1 });
    /// assert_eq!(second, first);
    /// # Ok::<(), avsplus::Refused>(())
    /// ```
    pub fn decode_pair(&self, state: &mut State, first: &mut Context, second: &mut Context) -> Result<bool, Refused> {
        let (a, b) = (first.to_sys(), second.to_sys());
        let step = calls::decode_pair(self.bytes(), self.bits(), state.to_sys(), a, b)?;
        let bin = bin(step.status, step.missing, step.bin)?;
        *state = State::from_sys(step.state);
        *first = Context::from_sys(step.first);
        *second = Context::from_sys(step.second);
        Ok(bin)
    }

    /// A bypass bin.
    ///
    /// ```
    /// let payload = avsplus::Payload::whole(&[0x80, 0x40, 0x00]);
    /// let mut state = payload.start()?;
    /// assert_eq!(payload.bypass(&mut state), Ok(true));
    /// assert_eq!(state.place, 18);
    /// # Ok::<(), avsplus::Refused>(())
    /// ```
    pub fn bypass(&self, state: &mut State) -> Result<bool, Refused> {
        plain(calls::bypass(self.bytes(), self.bits(), state.to_sys())?, state)
    }

    /// A stuffing bin.
    ///
    /// ```
    /// let payload = avsplus::Payload::whole(&[0x40, 0x00]);
    /// let mut state = payload.start()?;
    /// assert_eq!(payload.stuffing(&mut state), Ok(false));
    /// assert_eq!((state.rs, state.rt), (0, 254));
    /// # Ok::<(), avsplus::Refused>(())
    /// ```
    pub fn stuffing(&self, state: &mut State) -> Result<bool, Refused> {
        plain(calls::stuffing(self.bytes(), self.bits(), state.to_sys())?, state)
    }
}

fn plain(step: sys::PlainBin, state: &mut State) -> Result<bool, Refused> {
    let bin = bin(step.status, step.missing, step.bin)?;
    *state = State::from_sys(step.state);
    Ok(bin)
}

/// A decoded bin: nothing but 0 and 1 is one.
fn bin(status: u32, missing: u32, bin: u32) -> Result<bool, Refused> {
    was_read(status, missing)?;
    match bin {
        0 => Ok(false),
        1 => Ok(true),
        _ => Err(Reason::Malformed.into()),
    }
}

#[cfg(test)]
mod tests {
    use super::*;

    #[test]
    fn a_fresh_context_is_the_librarys() {
        assert_eq!(calls::fresh_context().map(Context::from_sys), Ok(Context::FRESH));
    }

    #[test]
    fn a_mark_is_no_bin() {
        assert_eq!((bin(0, 0, 0), bin(0, 0, 1)), (Ok(false), Ok(true)));
        assert_eq!(bin(0, 0, sys::AVSPLUS_NO_BIN), Err(Reason::Malformed.into()));
        assert_eq!(bin(14, 1, sys::AVSPLUS_NO_BIN), Err(Reason::PayloadOut { missing: 1 }.into()));
    }
}
