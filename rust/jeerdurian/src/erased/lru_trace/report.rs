// Erased from crates/lru_trace/src/report.rt: do not edit.
//! Writes a curve: as text for people, csv for programs, or a picture.

#[allow(unused_imports)]
use crate::rattle_std::prelude::*;

use crate::erased::lru_trace::best::Best;
use crate::erased::lru_trace::curves::AnyCurve;
use crate::erased::lru_trace::lines::Others;
use crate::erased::lru_trace::options::{Form, Measure, Options};
use crate::erased::lru_trace::rows::{
    BestMisses, Counts, Row, end_of, expected_of, missed_part, points, powers, powers_in, rows_of,
};
use crate::erased::lru_trace::svg::svg_of;
use crate::rattle_std::alloc::{AllocError, Global};

const WIDTH: u64 = 50;

fn add_copies(report: &mut Vec<u8>, byte: u8, copies: u64) -> Result<(), AllocError> {
    for _ in 0..copies {
        report.push(byte)?;
    }
    Ok(())
}

fn ratio(alloc: Global, n: u64) -> Result<String, AllocError> {
    let (whole, first, second, third, fourth) = (n / 10_000, n / 1000 % 10, n / 100 % 10, n / 10 % 10, n % 10);
    format!(in alloc; "{whole}.{first}{second}{third}{fourth}")
}

fn add_best(alloc: Global, report: &mut Vec<u8>, best: Option<BestMisses>) -> Result<(), AllocError> {
    if let Some(best) = best {
        let (min, bypass) = (best.min, best.bypass);
        let text = format!(in alloc; " min {min} bypass {bypass}")?;
        report.extend_from_slice(text.as_bytes())?;
    }
    Ok(())
}

fn measure_text(measure: Measure) -> &'static str {
    match measure {
        Measure::Places | Measure::PlacesWithDeletes => "places ",
        Measure::Bytes => "bytes ",
    }
}

fn add_size(alloc: Global, report: &mut Vec<u8>, measure: Measure, row: Row) -> Result<(), AllocError> {
    let (size, misses) = (row.size, row.misses);
    let hits = row.expected.saturating_sub(u128::from(misses));
    let ratio = ratio(alloc, missed_part(misses, row.expected, 10_000))?;
    let text = format!(in alloc; "{size} hits {hits} misses {misses} ratio {ratio}")?;
    report.extend_from_slice(measure_text(measure).as_bytes())?;
    report.extend_from_slice(text.as_bytes())?;
    add_best(alloc, report, row.best)?;
    report.push(b'\n')?;
    Ok(())
}

fn add_bar(alloc: Global, report: &mut Vec<u8>, row: Row) -> Result<(), AllocError> {
    let size = row.size;
    let number = format!(in alloc; "{size}")?;
    add_copies(report, b' ', 12_usize.saturating_sub(number.len()) as u64)?;
    report.extend_from_slice(number.as_bytes())?;
    report.extend_from_slice(b" |")?;
    let filled = missed_part(row.misses, row.expected, WIDTH);
    add_copies(report, b'#', filled)?;
    report.push(b'\n')?;
    Ok(())
}

fn add_sizes(alloc: Global, report: &mut Vec<u8>, measure: Measure, rows: &[Row]) -> Result<(), AllocError> {
    for row in rows {
        add_size(alloc, report, measure, *row)?;
    }
    Ok(())
}

fn add_bars(alloc: Global, report: &mut Vec<u8>, rows: &[Row]) -> Result<(), AllocError> {
    for row in rows {
        add_bar(alloc, report, *row)?;
    }
    Ok(())
}

fn skipped_text(alloc: Global, skipped: Option<u64>) -> Result<String, AllocError> {
    match skipped {
        Some(skipped) => format!(in alloc; " skipped {skipped}"),
        None => Ok(String::new_in(alloc)),
    }
}

fn head_text(alloc: Global, counts: Counts) -> Result<String, AllocError> {
    let (references, keys, malformed) = (counts.references, counts.keys, counts.malformed);
    let skipped = skipped_text(alloc, counts.skipped)?;
    format!(in alloc; "references {references} keys {keys} malformed {malformed}{skipped}\n")
}

fn text_of(alloc: Global, counts: Counts, named: &[Row], bars: &[Row]) -> Result<Vec<u8>, AllocError> {
    let head = head_text(alloc, counts)?;
    let mut report = Vec::from_slice(alloc, head.as_bytes())?;
    add_sizes(alloc, &mut report, counts.measure, named)?;
    add_bars(alloc, &mut report, bars)?;
    Ok(report)
}

fn add_csv_best(alloc: Global, csv: &mut Vec<u8>, best: Option<BestMisses>) -> Result<(), AllocError> {
    if let Some(best) = best {
        let (min, bypass) = (best.min, best.bypass);
        let text = format!(in alloc; ",{min},{bypass}")?;
        csv.extend_from_slice(text.as_bytes())?;
    }
    Ok(())
}

fn add_csv_line(alloc: Global, csv: &mut Vec<u8>, row: Row) -> Result<(), AllocError> {
    let (size, misses) = (row.size, row.misses);
    let hits = row.expected.saturating_sub(u128::from(misses));
    let ratio = ratio(alloc, missed_part(misses, row.expected, 10_000))?;
    let text = format!(in alloc; "{size},{hits},{misses},{ratio}")?;
    csv.extend_from_slice(text.as_bytes())?;
    add_csv_best(alloc, csv, row.best)?;
    csv.push(b'\n')?;
    Ok(())
}

fn csv_head(best: bool) -> &'static str {
    if best {
        return "size,hits,misses,ratio,min,bypass\n";
    }
    "size,hits,misses,ratio\n"
}

fn csv_of(alloc: Global, best: bool, rows: &[Row]) -> Result<Vec<u8>, AllocError> {
    let mut csv = Vec::from_slice(alloc, csv_head(best).as_bytes())?;
    for row in rows {
        add_csv_line(alloc, &mut csv, *row)?;
    }
    Ok(csv)
}

fn text_rows(
    alloc: Global,
    curve: &AnyCurve,
    counts: Counts,
    best: &Option<Best>,
    bits: u32,
    sizes: &[usize],
    powers: &[usize],
) -> Result<Vec<u8>, AllocError> {
    let expected = expected_of(bits, counts);
    let rows = rows_of(alloc, curve, best, bits, expected, sizes)?;
    let bars = rows_of(alloc, curve, &None, bits, expected, powers)?;
    let text = text_of(alloc, counts, &rows, &bars)?;
    Ok(text)
}

fn point_rows(
    alloc: Global,
    curve: &AnyCurve,
    counts: Counts,
    best: &Option<Best>,
    bits: u32,
    sizes: &[usize],
    powers: &[usize],
) -> Result<Vec<Row>, AllocError> {
    let points = points(alloc, sizes, powers)?;
    let rows = rows_of(alloc, curve, best, bits, expected_of(bits, counts), &points)?;
    Ok(rows)
}

fn counts_of(bits: u32, curve: &AnyCurve, others: Others) -> Counts {
    Counts {
        measure: curve.measure(),
        references: curve.references(),
        keys: curve.keys(),
        malformed: others.malformed,
        skipped: if bits == 0 { None } else { Some(others.skipped) },
    }
}

pub fn report_of(
    alloc: Global,
    options: Options,
    curve: &AnyCurve,
    others: Others,
    sizes: &[usize],
) -> Result<Vec<u8>, AllocError> {
    let bits = options.bits();
    let counts = counts_of(bits, curve, others);
    let axis = powers(alloc, end_of(curve.needed(), bits))?;
    let powers = powers_in(&axis, bits);
    let best = curve.best()?;
    match options.form {
        Form::Text => {
            let text = text_rows(alloc, curve, counts, &best, bits, sizes, powers)?;
            Ok(text)
        }
        Form::Csv => {
            let rows = point_rows(alloc, curve, counts, &best, bits, sizes, powers)?;
            let csv = csv_of(alloc, options.policies.best(), &rows)?;
            Ok(csv)
        }
        Form::Svg => {
            let rows = point_rows(alloc, curve, counts, &best, bits, sizes, powers)?;
            let svg = svg_of(alloc, counts, options.policies.best(), &axis, &rows)?;
            Ok(svg)
        }
    }
}
