//! `golomb`: Exp-Golomb numbers one after another.

use std::io::Write;

use avsplus::{Payload, Refused};

use crate::args::Args;
use crate::failure::{Failure, Refusal, Status, Written};
use crate::json;
use crate::payloads::{bits, concluded, refusal_of, Given, DONE};

/// Numbers of a payload with their places, until there are enough or one is refused.
#[derive(Clone)]
struct Numbers<'p> {
    payload: &'p Payload<'static>,
    signed: bool,
    /// How many are wanted, where that was said.
    wanted: Option<usize>,
    found: usize,
    /// The place of the next one.
    place: usize,
    refused: Option<Refused>,
}

impl Numbers<'_> {
    /// What the library answers to the number at the place: the number, and the place after it.
    fn read(&self) -> Result<(i64, usize), Refused> {
        match self.signed {
            true => self.payload.signed_golomb(self.place).map(|(n, after)| (i64::from(n), after)),
            false => self
                .payload
                .unsigned_golomb(self.place)
                .map(|(n, after)| (i64::from(n), after)),
        }
    }
}

impl Iterator for Numbers<'_> {
    type Item = (usize, i64);

    fn next(&mut self) -> Option<(usize, i64)> {
        if self.wanted == Some(self.found) || self.refused.is_some() {
            return None;
        }
        match self.read() {
            Ok((number, after)) => {
                let place = std::mem::replace(&mut self.place, after);
                self.found += 1;
                Some((place, number))
            }
            Err(refused) => {
                self.refused = Some(refused);
                None
            }
        }
    }
}

/// `golomb FILE`: numbers one after another, none of which is kept: as JSON they are read first for the answer, which stands before
/// them, and then to be written.
pub fn golomb(args: &Args, output: &mut dyn Write) -> Result<Status, Failure> {
    let wanted = args.number_option("--count")?;
    let place = args.number_option("--place")?.unwrap_or(0);
    let given = Given::read(args)?;
    let mut numbers = Numbers {
        payload: &given.payload,
        signed: args.flag("--signed"),
        wanted,
        found: 0,
        place,
        refused: None,
    };
    // A place past the end is none, even where no number is wanted.
    if place > given.bits() {
        numbers.refused = numbers.read().err();
    }
    if args.json() {
        let first = numbers.clone();
        numbers.by_ref().for_each(drop);
        let refusal = refusal_at_end(&given, &numbers)?;
        let written = numbers_json(output, &given, first, numbers.place, refusal.as_ref());
        return concluded(written, refusal, true);
    }
    let written = numbers_text(output, &given, &mut numbers);
    // Those that no reader waits for belong to the answer too.
    numbers.by_ref().for_each(drop);
    concluded(written, refusal_at_end(&given, &numbers)?, false)
}

/// What ended the numbers. Where no count was asked for, a payload that ends with a number is read to its end; one that does not
/// leaves bits that are no number.
fn refusal_at_end(given: &Given, numbers: &Numbers) -> Result<Option<Refusal>, Failure> {
    let refused = match numbers.refused {
        Some(refused) => refused,
        None => return Ok(None),
    };
    let refusal = refusal_of(refused)?.at_bit(numbers.place);
    if refusal.reason().missing().is_none() {
        return Ok(Some(refusal));
    }
    if numbers.wanted.is_none() && numbers.found > 0 && numbers.place == given.bits() {
        return Ok(None);
    }
    let meaning = cut(given, numbers.place, &refusal.meaning);
    Ok(Some(refusal.meaning(meaning)))
}

/// What is left where a number is cut, with the sentence of what was missing.
fn cut(given: &Given, place: usize, missing: &str) -> String {
    let end = given.bits();
    let counts_as = match place > end {
        true => format!("a place past the end counts as the end, bit {}: ", end),
        false => String::new(),
    };
    let left = end.saturating_sub(place);
    let are = if left == 1 { "is" } else { "are" };
    // Where the bits that may be filling would make it a number, whether it is one is for the caller to say.
    let number = match Payload::whole(given.payload.bytes()).unsigned_golomb(place) {
        Err(_) if given.unsure.min(left) > 0 => ", no whole number",
        _ => "",
    };
    let without = given.without_unsure(left);
    format!(
        "{}{} {} left{}, and {}{}",
        counts_as,
        bits(left),
        are,
        number,
        missing,
        without
    )
}

fn numbers_text(output: &mut dyn Write, given: &Given, numbers: &mut Numbers) -> Written {
    given.text(output)?;
    let mut head = Some("   place       number");
    for (place, number) in numbers.by_ref() {
        if let Some(head) = head.take() {
            writeln!(output, "{}", head)?;
        }
        writeln!(output, "{:>8}  {:>11}", place, number)?;
    }
    Ok(writeln!(output, "next place: {}", numbers.place)?)
}

fn numbers_json(output: &mut dyn Write, given: &Given, numbers: Numbers, next: usize, refusal: Option<&Refusal>) -> Written {
    json::line(output, |object| {
        object.answer(DONE, refusal)?;
        given.json(object)?;
        object.objects("numbers", numbers, |o, (place, number)| {
            o.put("place", place)?;
            o.put("number", number)
        })?;
        object.put("next_place", next)?;
        object.put("bits_left", given.bits().saturating_sub(next))
    })
}
