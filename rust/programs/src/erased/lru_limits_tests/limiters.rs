// Erased from crates/lru_limits_tests/src/limiters.rt: do not edit.
//! The debug texts of limiters.
#[allow(unused_imports)]
use crate::rattle_std::prelude::*;

use crate::erased::lru_limits::{ByCost, ByLength, ByMemoryUsage, RandomState, Storing, Unlimited};
use crate::programs::test_helpers::check;
use crate::rattle_std::test::Fail;

#[test]
fn texts() {
    let run = |rt: HostRuntime| -> Result<(), Fail> {
        let (length, memory) = (ByLength::from(3), ByMemoryUsage::from(560usize));
        let (cost, storing, state) = (ByCost::new(10), Storing(Unlimited), RandomState::default());
        let text = format!(in rt.alloc(); "{length:?} {memory:?} {cost:?} {storing:?} {state:?}")?;
        check!(rt; text.as_str()
            == "ByLength { max_length: 3 } ByMemoryUsage { max_bytes: 560 } ByCost { limit: 10, cost: 0 } \
            Storing(Unlimited) RandomState { .. }");
        Ok(())
    };
    run(HostRuntime).passes();
}
