//! How often each answer was met: printed, and a failure where one that was wanted never was.
use std::collections::BTreeMap;

pub type Counts = BTreeMap<String, usize>;

pub fn count(counts: &mut Counts, what: String) {
    *counts.entry(what).or_default() += 1;
}

pub fn report(name: &str, counts: &Counts, wanted: &[String]) {
    println!("{name}:");
    for (what, n) in counts {
        println!("  {what}: {n}");
    }
    let missed: Vec<_> = wanted.iter().filter(|what| !counts.contains_key(*what)).collect();
    assert!(missed.is_empty(), "never met: {missed:?}");
}
