// Erased from crates/lru_trace/src/columns.rt: do not edit.
#[allow(unused_imports)]
use crate::rattle_std::prelude::*;

use crate::erased::lru_trace::options::Column;

fn before(line: &[u8], separator: u8) -> &[u8] {
    for at in 0..line.len() {
        if (*at!(line, at)) == separator {
            return &(*at!(line, ..at));
        }
    }
    line
}

fn behind(line: &[u8], separator: u8) -> &[u8] {
    for at in 0..line.len() {
        if (*at!(line, at)) == separator {
            return &(*at!(line, at + 1..));
        }
    }
    b""
}

pub fn cell(line: &[u8], column: Column) -> &[u8] {
    let mut rest = line;
    for _ in 0..column.index {
        if rest.is_empty() {
            return rest;
        }
        rest = behind(rest, column.separator);
    }
    before(rest, column.separator)
}

pub fn text_in(line: &[u8], column: Option<Column>) -> &[u8] {
    match column {
        Some(column) => cell(line, column),
        None => line,
    }
}
