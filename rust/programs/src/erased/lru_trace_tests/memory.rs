// Erased from crates/lru_trace_tests/src/memory.rt: do not edit.
#[allow(unused_imports)]
use crate::rattle_std::prelude::*;

use crate::erased::lru_trace::{Column, Curve, Form, Options, Policies, Progress, TraceError, status, trace};
use crate::programs::test_helpers::{Hog, check};
use crate::rattle_std::alloc::Global;
use crate::rattle_std::test::Fail;

fn refer(alloc: Global, curve: &mut Curve, number: u64) -> Result<(), TraceError> {
    if curve.references() < 1_000_000 {
        curve.refer(format!(in alloc; "{number}")?.as_str())?;
    }
    Ok(())
}

fn fails_without_memory(alloc: Global, options: Options) -> Result<bool, TraceError> {
    let mut report = Vec::with_capacity(alloc, 9999)?;
    let mut progress = Progress::new(alloc, None::<Vec<u8>>);
    let mut failed = true;
    for blocks in 0..99 {
        let mut lines = b"1\n1\n2\n1\n".as_slice();
        let hog = Hog::but(alloc, blocks)?;
        let end = trace(alloc, options, &mut lines, &mut report, &mut progress);
        drop(hog);
        if end.is_ok() {
            return Ok(blocks > 0 && failed && !report.is_empty());
        }
        failed = failed && status(&end) == 3 && report.is_empty();
    }
    Ok(false)
}

#[test]
fn a_trace_without_memory() {
    let run = |rt: HostRuntime| -> Result<(), Fail> {
        let mut options = Options { column: None, form: Form::Text, policies: Policies::Lru { warm_up: 1 }, sample: 0 };
        for form in [Form::Text, Form::Csv, Form::Svg] {
            options.form = form;
            check!(rt; fails_without_memory(rt.alloc(), options)?);
        }
        options.policies = Policies::Sized { warm_up: 1, size: Column { index: 0, separator: b',' } };
        check!(rt; fails_without_memory(rt.alloc(), options)?);
        Ok(())
    };
    run(HostRuntime).passes();
}

fn looks_ahead(alloc: Global) -> Result<bool, TraceError> {
    let mut curve = Curve::keeping_references(alloc)?;
    for n in 0..3u64 {
        refer(alloc, &mut curve, n % 2)?;
    }
    Ok(curve.best()?.is_some())
}

#[test]
fn looking_ahead_without_memory() {
    let run = |rt: HostRuntime| -> Result<(), Fail> {
        let mut refused = 0u64;
        for blocks in 0..99 {
            let hog = Hog::but(rt.alloc(), blocks)?;
            let ahead = looks_ahead(rt.alloc());
            drop(hog);
            if let Ok(ahead) = ahead {
                check!(rt; ahead & (refused > 0));
                return Ok(());
            }
            refused = refused.saturating_add(1);
        }
        check!(rt; false);
        Ok(())
    };
    run(HostRuntime).passes();
}
