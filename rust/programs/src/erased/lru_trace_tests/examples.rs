// Erased from crates/lru_trace_tests/src/examples.rt: do not edit.
//! Written by `docs/examples.py` from the examples in the doc comments. Do not change it by hand.
#[allow(unused_imports)]
use crate::rattle_std::prelude::*;

use crate::erased::lru_trace::{ByteCurve, Curve, DeleteCurve};
use crate::programs::test_helpers::{all, check};
use crate::rattle_std::test::Fail;

#[test]
fn of_byte_curve() {
    let run = |rt: HostRuntime| -> Result<(), Fail> {
        let alloc = rt.alloc();
        let mut curve = ByteCurve::new(alloc, vec![in alloc; 10, 30]?)?;
        for (key, bytes) in [("a", 10), ("b", 20), ("a", 10), ("a", 10)] {
            if curve.references() < u64::MAX && curve.refer(key, bytes).is_err() {
                break;
            }
        }
        check!(rt; (curve.misses(10), curve.misses(30), curve.misses(20)) == (Some(3), Some(2), None));
        Ok(())
    };
    run(HostRuntime).passes();
}

#[test]
fn of_curve() {
    let run = |rt: HostRuntime| -> Result<(), Fail> {
        let alloc = rt.alloc();
        let mut curve = Curve::new(alloc)?;
        for key in ["a", "b", "a", "c", "a"] {
            if curve.references() < u64::MAX {
                curve.refer(key)?;
            }
        }
        check!(rt; (curve.misses(0), curve.misses(1), curve.misses(2)) == (5, 5, 3));
        Ok(())
    };
    run(HostRuntime).passes();
}

#[test]
fn of_curve_2() {
    let run = |rt: HostRuntime| -> Result<(), Fail> {
        let alloc = rt.alloc();
        let mut curve = Curve::keeping_references(alloc)?;
        for key in ["a", "b", "c", "a", "b", "c"] {
            if curve.references() < u64::MAX {
                curve.refer(key)?;
            }
        }
        if let Some(best) = curve.best()? {
            let misses = (best.min_misses(2)?, best.bypass_misses(2)?);
            assert!(rt; misses == (4, 4) && curve.misses(2) == 6);
        }
        Ok(())
    };
    run(HostRuntime).passes();
}

#[test]
fn of_curve_3() {
    let run = |rt: HostRuntime| -> Result<(), Fail> {
        let alloc = rt.alloc();
        let mut curve = Curve::new(alloc)?;
        curve.warm_up("a")?;
        curve.warm_up("b")?;
        for key in ["a", "c", "b"] {
            if curve.references() < u64::MAX {
                curve.refer(key)?;
            }
        }
        check!(rt; (curve.references(), curve.misses(2), curve.misses(3)) == (3, 2, 1));
        Ok(())
    };
    run(HostRuntime).passes();
}

#[test]
fn of_delete_curve() {
    let run = |rt: HostRuntime| -> Result<(), Fail> {
        let alloc = rt.alloc();
        let mut curve = DeleteCurve::new(alloc)?;
        for key in ["a", "b", "c"] {
            curve.warm_up(key)?;
        }
        curve.delete("b")?;
        for key in ["a", "b"] {
            if curve.references() < u64::MAX {
                curve.refer(key)?;
            }
        }
        check!(rt; (curve.references(), curve.misses(2), curve.misses(3), curve.places()) == (2, 2, 1, 3));
        Ok(())
    };
    run(HostRuntime).passes();
}
