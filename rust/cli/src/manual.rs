//! The man page, made of the help texts: what stands there indented stays as it is.

use std::io::{self, Write};

use crate::help;
use crate::{Command, COMMANDS};

/// Writes the man page.
pub fn write(output: &mut dyn Write) -> io::Result<()> {
    let title = concat!(
        ".TH AVSPLUS 1 \"\" \"avsplus ",
        env!("CARGO_PKG_VERSION"),
        "\" \"AVS+ recordings\"\n"
    );
    output.write_all(title.as_bytes())?;
    writeln!(output, ".SH NAME\navsplus \\- files AVS+ (GY/T 257.1) recordings")?;
    writeln!(output, ".SH SYNOPSIS\n.B avsplus\n[\\-\\-json] COMMAND ARGUMENTS")?;
    writeln!(output, ".SH DESCRIPTION")?;
    text(output, help::OVERVIEW)?;
    for Command { name, help, .. } in COMMANDS {
        writeln!(output, ".SH {}", name.to_uppercase())?;
        text(output, help)?;
    }
    writeln!(output, ".SH REFUSALS")?;
    let mut refusals = Vec::new();
    crate::write_refusals(&mut refusals)?;
    text(output, &String::from_utf8_lossy(&refusals))
}

/// A paragraph whose lines all begin at the margin is prose; any other stays as it is.
fn text(output: &mut dyn Write, text: &str) -> io::Result<()> {
    for paragraph in text.split("\n\n") {
        let prose = paragraph.lines().all(|line| !line.starts_with(' '));
        writeln!(output, "{}", if prose { ".PP" } else { ".PP\n.nf" })?;
        for line in paragraph.lines() {
            writeln!(output, "{}", escaped(line))?;
        }
        if !prose {
            writeln!(output, ".fi")?;
        }
    }
    Ok(())
}

/// Backslashes and hyphens have another meaning there, and so has a line's first point or apostrophe.
fn escaped(line: &str) -> String {
    let line = line.replace('\\', "\\e").replace('-', "\\-");
    match line.starts_with(['.', '\'']) {
        true => format!("\\&{}", line),
        false => line,
    }
}
