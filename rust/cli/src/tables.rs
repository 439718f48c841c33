//! `tables`: the tables of context steps.

use std::io::Write;

use avsplus::{Rate, Refused};

use crate::args::Args;
use crate::failure::{Failure, Status, Written};
use crate::json;
use crate::payloads::DONE;

/// A rate's table: the next lg of each lg from 0 on, up to the first that has none.
fn table(rate: Rate) -> Result<Vec<u32>, Refused> {
    (0..).map_while(|lg| rate.next_lg(lg).transpose()).collect()
}

/// `tables`: the next lg of every lg, at each rate.
pub fn tables(args: &Args, output: &mut dyn Write) -> Result<Status, Failure> {
    let tables = [table(Rate::Three)?, table(Rate::Four)?, table(Rate::Five)?];
    match args.json() {
        true => tables_json(output, &tables)?,
        false => tables_text(output, &tables)?,
    }
    Ok(Status::Done)
}

fn tables_text(output: &mut dyn Write, [three, four, five]: &[Vec<u32>; 3]) -> Written {
    writeln!(output, "  lg   w 3   w 4   w 5")?;
    for (lg, ((three, four), five)) in three.iter().zip(four).zip(five).enumerate() {
        writeln!(output, "{:>4}{:>6}{:>6}{:>6}", lg, three, four, five)?;
    }
    Ok(())
}

fn tables_json(output: &mut dyn Write, tables: &[Vec<u32>; 3]) -> Written {
    json::line(output, |object| {
        object.done(DONE)?;
        object.objects("tables", Rate::ALL.into_iter().zip(tables), |object, (rate, table)| {
            object.put("w", rate.w())?;
            object.values("next_lg", table.iter().copied())
        })
    })
}
