// Erased from crates/trace/src/main.rt: do not edit.
//! The program of `docs/TRACE.md`. Shows its progress on standard error, if this is a terminal.

#[allow(unused_imports)]
use crate::rattle_std::prelude::*;

use crate::erased::lru_trace::{Column, Form, Options, Policies, Progress, TraceEnd, TraceError, status, trace};
use crate::rattle_std::env;
use crate::rattle_std::io::{self, BufReader, BufWriter, IsTerminal};
use crate::rattle_std::process::ExitCode;

const NO_BUFFER: u8 = 3;

const UNKNOWN: u8 = 4;

const MOST_BITS: u32 = 20;

const HELP: &str = "\
trace [--best | --warm-up N] [--deletes] [--sample R] [--csv | --svg] [--column N] [--size-column N] [--separator C] < LINES
    Prints how often an LRU cache of each size misses the keys that were referenced.

The first line has sizes with a space between each two, such as 1 10 100 1000. Each other line is a key, of 1 to 64
bytes; an empty or longer line is only counted.

The output is a line for each named size, and then a bar for each power of two: the part of the references that miss.

--best         adds to each line how often the best possible policies miss: min stores each key, bypass may leave a key
               out. It takes 16 to 32 bytes more for each reference.
--warm-up N    takes the first N keys as a warm-up: they fill the caches, but are not counted as references, hits or
               misses. It cannot be combined with --best.
--deletes      takes a line that begins with \"- \" as a delete: it removes the key after the space from each cache that
               contains the key, and is not counted. Then keys is the most keys that were there at once. It cannot be
               combined with --best or --size-column.
--sample R     takes only the keys whose FNV-1a hash of 64 bits has its R lowest bits 0, about one key in 2^R, and
               counts the others as skipped. A size n stands for n / 2^R, and the ratio is estimated for all
               keys. R is 0 to 20.
--csv          prints a record for each named size and each power of two, below a header.
--svg          prints a picture of the curves. Of --csv and --svg the last one counts.
--column N     takes the Nth column of each line as its key. The first line still has sizes.
--size-column N
               takes the Nth column as the size of the entry in bytes, so that sizes of caches are in bytes. A key keeps
               its first size. It cannot be combined with --best.
--separator C  says which byte stands between two columns. Without it, that is a comma.

Exit status: 0 after the output, 1 if the first line has no sizes, 2 if a read or a write failed, 3 without memory,
4 if an argument is unknown, lacks its value, cannot be read or cannot be combined, 5 if the sizes of all keys sum to
2^64 or more.
";

#[derive(Clone, Copy, PartialEq, Eq)]
enum Next {
    Word,
    Number,
    SizeNumber,
    Separator,
    WarmUp,
    Sample,
}

#[derive(Clone, Copy)]
struct Asked {
    best: bool,
    deletes: bool,
    warm_up: Option<u64>,
    form: Form,
    sample: u32,
    column: Option<usize>,
    size: Option<usize>,
    separator: u8,
    next: Next,
}

fn index(argument: &str) -> Option<usize> {
    match argument.parse::<usize>() {
        Ok(number) => number.checked_sub(1),
        Err(_) => None,
    }
}

impl Asked {
    /// Returns whether the argument is known and valid.
    fn take(&mut self, argument: &str) -> bool {
        match self.next {
            Next::Word => return self.take_word(argument),
            Next::Number => match index(argument) {
                Some(index) => self.column = Some(index),
                None => return false,
            },
            Next::SizeNumber => match index(argument) {
                Some(index) => self.size = Some(index),
                None => return false,
            },
            Next::Separator => match argument.as_bytes() {
                [byte] => self.separator = *byte,
                _ => return false,
            },
            Next::WarmUp => match argument.parse::<u64>() {
                Ok(number) => self.warm_up = Some(number),
                Err(_) => return false,
            },
            Next::Sample => match argument.parse::<u32>() {
                Ok(bits) if bits <= MOST_BITS => self.sample = bits,
                _ => return false,
            },
        }
        self.next = Next::Word;
        true
    }

    fn take_word(&mut self, argument: &str) -> bool {
        match argument {
            "--best" => self.best = true,
            "--deletes" => self.deletes = true,
            "--csv" => self.form = Form::Csv,
            "--svg" => self.form = Form::Svg,
            "--column" => self.next = Next::Number,
            "--size-column" => self.next = Next::SizeNumber,
            "--separator" => self.next = Next::Separator,
            "--warm-up" => self.next = Next::WarmUp,
            "--sample" => self.next = Next::Sample,
            _ => return false,
        }
        true
    }

    /// Returns the policies, or else two options that cannot be combined.
    fn policies(&self) -> Result<Policies, (&'static str, &'static str)> {
        let size = self.column_at(self.size);
        let warm_up = self.warm_up.unwrap_or(0);
        match (self.best, self.deletes, size) {
            (true, _, _) if self.warm_up.is_some() => Err(("--warm-up", "--best")),
            (true, true, _) => Err(("--deletes", "--best")),
            (true, false, Some(_)) => Err(("--size-column", "--best")),
            (true, false, None) => Ok(Policies::Best),
            (false, true, Some(_)) => Err(("--size-column", "--deletes")),
            (false, true, None) => Ok(Policies::Deletes { warm_up }),
            (false, false, Some(size)) => Ok(Policies::Sized { warm_up, size }),
            (false, false, None) => Ok(Policies::Lru { warm_up }),
        }
    }

    fn column_at(&self, index: Option<usize>) -> Option<Column> {
        let separator = self.separator;
        index.map(|index| Column { index, separator })
    }

    fn options(&self, policies: Policies) -> Options {
        Options { column: self.column_at(self.column), form: self.form, policies, sample: self.sample }
    }
}

pub(crate) fn main(rt: HostRuntime) -> ExitCode {
    let Ok(arguments) = env::args(&rt) else {
        return ExitCode::from(UNKNOWN);
    };
    let mut asked = Asked {
        best: false,
        deletes: false,
        warm_up: None,
        form: Form::Text,
        sample: 0,
        column: None,
        size: None,
        separator: b',',
        next: Next::Word,
    };
    for argument in arguments.skip(1) {
        if !asked.take(argument.as_str()) {
            return answer(&rt, asked.next, argument.as_str());
        }
    }
    if asked.next != Next::Word {
        let _ = eprintln!(rt; "trace: the last argument lacks its value; try --help");
        return ExitCode::from(UNKNOWN);
    }
    match asked.policies() {
        Ok(policies) => run(&rt, asked.options(policies)),
        Err((refused, other)) => {
            let _ = eprintln!(rt; "trace: {refused} cannot be combined with {other}; try --help");
            ExitCode::from(UNKNOWN)
        }
    }
}

fn run(rt: &HostRuntime, options: Options) -> ExitCode {
    let Ok(mut reader) = BufReader::new(rt.alloc(), rt.reader()) else {
        return ExitCode::from(NO_BUFFER);
    };
    let Ok(mut writer) = BufWriter::new(rt.alloc(), io::writer(rt)) else {
        return ExitCode::from(NO_BUFFER);
    };
    let errors = rt.stderr();
    let waiting = if errors.is_terminal() { Some(errors) } else { None };
    let mut progress = Progress::new(rt.alloc(), waiting);
    let end = trace(rt.alloc(), options, &mut reader, &mut writer, &mut progress);
    // After a failed write, dropping the buffer would write its bytes again.
    let (_output, _unwritten) = writer.into_parts();
    explain(rt, &end);
    ExitCode::from(status(&end))
}

/// Writes to standard error why there is no output.
fn explain(rt: &HostRuntime, end: &Result<TraceEnd, TraceError>) {
    match end {
        Ok(TraceEnd::Done) => {}
        Ok(TraceEnd::NoSizes) => {
            let _ = eprintln!(rt; "trace: the first line has no sizes; try --help");
        }
        Err(error) => {
            let _ = eprintln!(rt; "trace: {error}");
        }
    }
}

/// Answers an argument that `take` refused when it expected `next`.
fn answer(rt: &HostRuntime, next: Next, argument: &str) -> ExitCode {
    if argument == "--help" {
        let _ = print!(rt; "{HELP}");
        return ExitCode::SUCCESS;
    }
    if next == Next::Word {
        let _ = eprintln!(rt; "trace: unknown argument {argument}; try --help");
    } else {
        let _ = eprintln!(rt; "trace: an option cannot have the value {argument}; try --help");
    }
    ExitCode::from(UNKNOWN)
}
