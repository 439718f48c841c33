//! `bins`: bins of the arithmetic decoder.

use std::io::Write;

use avsplus::{Context, Payload, Refused, State};

use crate::args::Args;
use crate::failure::{Failure, Refusal, Status, Written};
use crate::json::{self, Object};
use crate::payloads::{concluded, refusal_of, Given, DONE};

/// The kind of bins to decode.
#[derive(Clone, Copy)]
enum Model {
    Context(Context),
    Bypass,
    Stuffing,
}

impl Model {
    fn asked_for(args: &Args) -> Result<Model, Failure> {
        match (args.flag("--bypass"), args.flag("--stuffing")) {
            (false, false) => Ok(Model::Context(Context::FRESH)),
            (true, false) => Ok(Model::Bypass),
            (false, true) => Ok(Model::Stuffing),
            (true, true) => Err(Failure::usage("--bypass and --stuffing exclude each other")),
        }
    }

    fn bin(&mut self, payload: &Payload<'_>, state: &mut State) -> Result<bool, Refused> {
        match self {
            Model::Context(context) => payload.decode(state, context),
            Model::Bypass => payload.bypass(state),
            Model::Stuffing => payload.stuffing(state),
        }
    }

    fn context(&self) -> Option<Context> {
        match self {
            Model::Context(context) => Some(*context),
            Model::Bypass | Model::Stuffing => None,
        }
    }
}

/// Bins of a payload, until there are enough or one is refused.
#[derive(Clone)]
struct Bins<'p> {
    payload: &'p Payload<'static>,
    model: Model,
    /// None where the payload is too short to start.
    state: Option<State>,
    wanted: usize,
    found: usize,
    refused: Option<Refused>,
}

impl<'p> Bins<'p> {
    fn start(payload: &'p Payload<'static>, model: Model, wanted: usize) -> Bins<'p> {
        let started = payload.start();
        Bins {
            payload,
            model,
            state: started.ok(),
            wanted,
            found: 0,
            refused: started.err(),
        }
    }
}

impl Iterator for Bins<'_> {
    type Item = u32;

    fn next(&mut self) -> Option<u32> {
        let state = match &mut self.state {
            Some(state) if self.found < self.wanted && self.refused.is_none() => state,
            _ => return None,
        };
        match self.model.bin(self.payload, state) {
            Ok(bin) => {
                self.found += 1;
                Some(u32::from(bin))
            }
            Err(refused) => {
                self.refused = Some(refused);
                None
            }
        }
    }
}

/// `bins FILE --count K`: bins of the arithmetic decoder, none of which is kept: as JSON they are decoded first for the answer, which
/// stands before them, and then to be written.
pub fn bins(args: &Args, output: &mut dyn Write) -> Result<Status, Failure> {
    let model = Model::asked_for(args)?;
    let wanted = args
        .number_option("--count")?
        .ok_or_else(|| Failure::usage("--count is missing"))?;
    let given = Given::read(args)?;
    let mut bins = Bins::start(&given.payload, model, wanted);
    if args.json() {
        let first = bins.clone();
        bins.by_ref().for_each(drop);
        let refusal = refusal_at_end(&given, &bins)?;
        let written = bins_json(output, &given, first, &bins, refusal.as_ref());
        return concluded(written, refusal, true);
    }
    let written = bins_text(output, &given, &mut bins);
    // Those that no reader waits for belong to the answer too.
    bins.by_ref().for_each(drop);
    concluded(written, refusal_at_end(&given, &bins)?, false)
}

/// What ended the bins: of PAYLOAD OUT after how many, how many bits were missing, and which were not read.
fn refusal_at_end(given: &Given, bins: &Bins) -> Result<Option<Refusal>, Failure> {
    let refusal = match bins.refused {
        Some(refused) => refusal_of(refused)?,
        None => return Ok(None),
    };
    if refusal.reason().missing().is_none() {
        return Ok(Some(refusal));
    }
    let begun = match bins.state {
        Some(_) => format!("after {} of {} bins", bins.found, bins.wanted),
        None => "to start".to_string(),
    };
    let meaning = format!("{}, {}{}", begun, refusal.meaning, given.without_unsure(given.unsure));
    Ok(Some(refusal.meaning(meaning)))
}

fn bins_text(output: &mut dyn Write, given: &Given, bins: &mut Bins) -> Written {
    given.text(output)?;
    if bins.state.is_none() {
        return Ok(());
    }
    write!(output, "bins: ")?;
    for bin in bins.by_ref() {
        output.write_all(if bin == 0 { b"0" } else { b"1" })?;
    }
    writeln!(output)?;
    if let Some(State { rs, rt, vs, vt, place }) = bins.state {
        writeln!(
            output,
            "state: rS {}, rT {}, valueS {}, valueT {}, place {}",
            rs, rt, vs, vt, place
        )?;
    }
    if let Some(Context { mps, lg, cycno }) = bins.model.context() {
        writeln!(output, "context: mps {}, lg {}, cycno {}", mps, lg, cycno)?;
    }
    Ok(())
}

fn bins_json(output: &mut dyn Write, given: &Given, bins: Bins, ended: &Bins, refusal: Option<&Refusal>) -> Written {
    json::line(output, |object| {
        object.answer(DONE, refusal)?;
        given.json(object)?;
        object.values("bins", bins)?;
        match &ended.state {
            Some(state) => object.object("state", |o| state_json(o, state))?,
            None => object.put("state", None::<u32>)?,
        }
        match ended.model.context() {
            Some(context) if ended.state.is_some() => object.object("context", |o| context_json(o, &context)),
            _ => object.put("context", None::<u32>),
        }
    })
}

fn state_json(object: &mut Object, state: &State) -> Written {
    object.put("rs", state.rs)?;
    object.put("rt", state.rt)?;
    object.put("vs", state.vs)?;
    object.put("vt", state.vt)?;
    object.put("place", state.place)
}

fn context_json(object: &mut Object, context: &Context) -> Written {
    object.put("mps", context.mps)?;
    object.put("lg", context.lg)?;
    object.put("cycno", context.cycno)
}
