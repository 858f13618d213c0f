// Erased from crates/rows/src/main.rt: do not edit.
//! Runs the rows of data files, and rows of random calls. `docs/ROWS.md` explains their form.

#[allow(unused_imports)]
use crate::rattle_std::prelude::*;

mod answers;
mod calls;
mod escapes;
mod hasher;
mod limiters;
mod lines;
mod maps;
mod plain;
mod report;
mod results;
mod row;
mod streams;
mod table;
mod text;
mod trials;

use crate::rattle_std::alloc::Global;
use crate::rattle_std::{env, fs, io};
use plain::Limit;
use report::agrees;
use row::Row;
use trials::{Bounds, Trial};

const HELP: &str = "\
rows FILES
    Runs the rows of the files, and rows of random calls. docs/ROWS.md explains their form.

Exit status: 1 if a file cannot be read, and otherwise 0.
";

/// How many random calls are tried under each limit.
const CALLS: u64 = 400_000;

/// The first lines of the rows of random calls.
const FIRST_LINES: [&str; 8] = [
    "length 150",
    "memory 288 16",
    "cost 4000",
    "compact",
    "map length 150 hash sum",
    "map memory 288 hash sum",
    "map summing cost 4000 hash sum",
    "map compact hash sum",
];

/// How random calls are chosen: line n of `FIRST_LINES` uses bounds n % 4.
const BOUNDS: [Bounds; 4] = [
    Bounds { limit: Limit::Length(150), keys: 400, values: 1000 },
    Bounds { limit: Limit::Memory(288, 16), keys: 40, values: 1000 },
    Bounds { limit: Limit::Cost(4000), keys: 300, values: 60 },
    Bounds { limit: Limit::Unlimited, keys: 4000, values: 1000 },
];

fn answers_of(alloc: Global, input: &[u8]) -> Vec<u8> {
    if input.starts_with(b"map ") {
        maps::answers_of(alloc, str::from_utf8(input).unwrap_or("")).into_vec()
    } else {
        lines::answers_of(alloc, input)
    }
}

fn holds(rt: &HostRuntime, row: &Row) -> io::Result<bool> {
    let text = answers_of(rt.alloc(), row.input.as_slice());
    if !agrees(rt, row.name, text.as_slice(), row.text.as_slice())? {
        return Ok(false);
    }
    if row.input.starts_with(b"map ") {
        return Ok(true);
    }
    let Some((manner, at)) = lines::first_fault(rt.alloc(), row) else {
        return Ok(true);
    };
    println!(rt; "row {}: differs with {manner}, at {at}", row.name)?;
    Ok(false)
}

fn check_file(rt: &HostRuntime, file: &str) -> io::Result<(u64, u64)> {
    let text = fs::read_to_string(rt, file)?;
    let (mut hold, mut fail) = (0u64, 0u64);
    for lines in text.split("\n\n") {
        let row = Row::of(rt.alloc(), lines);
        if row.name.is_empty() && row.text.is_empty() {
        } else if holds(rt, &row)? {
            hold = hold.saturating_add(1);
        } else {
            fail = fail.saturating_add(1);
        }
    }
    Ok((hold, fail))
}

fn try_calls(rt: &HostRuntime, first: &str, bounds: Bounds) -> io::Result<bool> {
    let trial = Trial::new(rt.alloc(), first, bounds, CALLS);
    let answers = answers_of(rt.alloc(), trial.input.as_str().as_bytes());
    let answers = str::from_utf8(answers.as_slice()).unwrap_or("");
    let answers = answers.replace_in(rt.alloc(), "kept\n", "ok\n")?;
    agrees(rt, first, answers.as_str().as_bytes(), trial.text.as_str().as_bytes())
}

pub(crate) fn main(rt: HostRuntime) -> io::Result<()> {
    let (mut hold, mut fail) = (0u64, 0u64);
    for file in env::args(&rt)?.skip(1) {
        if file.as_str() == "--help" {
            return print!(rt; "{HELP}");
        }
        let (good, bad) = check_file(&rt, file.as_str())?;
        hold = hold.saturating_add(good);
        fail = fail.saturating_add(bad);
    }
    let mut agree = 0u64;
    for (i, first) in FIRST_LINES.iter().enumerate() {
        agree = agree.saturating_add(try_calls(&rt, *first, (*at!(BOUNDS, i % 4)))? as u64);
    }
    println!(rt;
        "{hold} rows hold, {fail} fail; {agree} of 8 lists of {CALLS} random calls agree with a plain list"
    )
}
