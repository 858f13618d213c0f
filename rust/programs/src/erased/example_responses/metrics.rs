// Erased from crates/example_responses/src/metrics.rt: do not edit.
//! The counts of the hosts, in the text format that Prometheus reads.
#[allow(unused_imports)]
use crate::rattle_std::prelude::*;

use crate::programs::example_responses::cache::ResponseCache;
use crate::rattle_std::io;

const METRICS: [(&str, &str); 7] = [
    ("responses_hits_total", "counter"),
    ("responses_misses_total", "counter"),
    ("responses_insertions_total", "counter"),
    ("responses_rejections_total", "counter"),
    ("responses_evictions_total", "counter"),
    ("responses_entries", "gauge"),
    ("responses_cost", "gauge"),
];

/// Returns the values in the order of `METRICS`.
fn values_of(cache: &ResponseCache, host: &str) -> [u64; 7] {
    let counts = cache.counts(host);
    let (entries, cost) = cache.size(host);
    [counts.hits, counts.misses, counts.insertions, counts.rejections, counts.evictions, entries as u64, cost]
}

fn write_label(rt: &HostRuntime, host: &str) -> io::Result<()> {
    for c in host.chars() {
        if c == '"' || c == '\\' {
            print!(rt; "\\")?;
        }
        print!(rt; "{c}")?;
    }
    Ok(())
}

pub fn write(rt: &HostRuntime, cache: &ResponseCache) -> io::Result<()> {
    let hosts = cache.hosts()?;
    for (place, (name, kind)) in METRICS.iter().enumerate() {
        println!(rt; "# TYPE {name} {kind}")?;
        for host in &hosts {
            let values = values_of(cache, host);
            if let Some(value) = values.get(place) {
                print!(rt; "{name}")?;
                print!(rt; "{}", "{host=\"")?;
                write_label(rt, host)?;
                print!(rt; "{}", "\"} ")?;
                println!(rt; "{value}")?;
            }
        }
    }
    Ok(())
}
