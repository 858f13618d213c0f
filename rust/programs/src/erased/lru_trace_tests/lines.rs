// Erased from crates/lru_trace_tests/src/lines.rt: do not edit.
#[allow(unused_imports)]
use crate::rattle_std::prelude::*;

use crate::erased::lru_trace::{Form, Options, Policies, Progress, TraceEnd, trace};
use crate::programs::test_helpers::check;
use crate::rattle_std::test::Fail;

const TEXT: Options = Options { column: None, form: Form::Text, policies: Policies::Lru { warm_up: 0 }, sample: 0 };

#[test]
fn of_the_progress() {
    let run = |rt: HostRuntime| -> Result<(), Fail> {
        let alloc = rt.alloc();
        let mut input = vec![in alloc; b'1', b'\n']?;
        input.resize(2_000_003, b'\n')?;
        let mut report = Vec::new(alloc);
        let mut shown = Vec::new(alloc);
        let mut progress = Progress::new(alloc, Some(&mut shown));
        let end = trace(alloc, TEXT, &mut input.as_slice(), &mut report, &mut progress);
        check!(rt; end == Ok(TraceEnd::Done));
        drop(progress);
        check!(rt; shown.as_slice() == b"1000000 lines\n2000000 lines\n".as_slice());
        check!(rt; report.starts_with(b"references 0 keys 0 malformed 2000001\n"));
        Ok(())
    };
    run(HostRuntime).passes();
}
