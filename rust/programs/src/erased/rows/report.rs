// Erased from crates/rows/src/report.rt: do not edit.
#[allow(unused_imports)]
use crate::rattle_std::prelude::*;

use crate::rattle_std::io;

pub fn agrees(rt: &HostRuntime, name: &str, got: &[u8], expected: &[u8]) -> io::Result<bool> {
    if got == expected {
        return Ok(true);
    }
    let line = same_lines(got, expected);
    println!(rt;
        "row {name}: answer {} is \"{}\" in place of \"{}\"",
        line.saturating_add(1),
        line_at(got, line),
        line_at(expected, line)
    )?;
    Ok(false)
}

fn same_lines(one: &[u8], other: &[u8]) -> usize {
    let mut lines = 0usize;
    for (a, b) in one.iter().zip(other) {
        if a != b {
            return lines;
        }
        lines = lines.saturating_add((*a == b'\n') as usize);
    }
    lines
}

fn line_at(text: &[u8], number: usize) -> &str {
    let text = str::from_utf8(text).unwrap_or("bytes that are no text");
    text.lines().nth(number).unwrap_or("")
}
