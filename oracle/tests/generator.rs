//! What the generator makes, and that what is called optimal is cheapest.

mod methods;

use methods::judge;
use oracle::bench_inputs;
use oracle::case;
use oracle::generate::plans::{cheapest, EXACT_LIMIT};
use oracle::generate::{family, Sample};
use oracle::FILE_LIMIT;
use std::collections::BTreeSet;

const FAMILIES: std::ops::Range<u64> = 0..300;

fn line(sample: &Sample) -> String {
    judge(&sample.files.case, &sample.files.plan, &sample.files.tree)
}

#[test]
fn optimal_is_cheapest() {
    let mut proved = 0;
    for sample in FAMILIES.flat_map(family) {
        let line = line(&sample);
        let Some(cost) = line.strip_prefix("optimal ") else { continue };
        let case = case::read(&sample.files.case).expect("a case is called optimal");
        if case.customers <= EXACT_LIMIT {
            let best = cheapest(&case).expect("a plan is called optimal").cost;
            assert_eq!(cost, best.to_string(), "{}", sample.made);
            proved += 1;
        }
    }
    assert!(proved > 500, "{proved}");
}

#[test]
fn every_denial_is_met() {
    let numbers: BTreeSet<u8> = FAMILIES
        .flat_map(family)
        .filter_map(|sample| {
            line(&sample).split(' ').nth(1)?.parse().ok().filter(|_| line(&sample).starts_with("fault"))
        })
        .collect();
    let printed: BTreeSet<u8> = (1..=24).filter(|number| ![4, 17, 21].contains(number)).collect();
    assert_eq!(numbers, printed);
}

#[test]
fn a_seed_gives_one_family() {
    for seed in 0..20 {
        let [first, second] = [family(seed), family(seed)];
        assert!(first.iter().map(|sample| &sample.files).eq(second.iter().map(|sample| &sample.files)));
    }
}

#[test]
fn bench_inputs_are_granted() {
    for input in bench_inputs::all() {
        let files = &input.files;
        assert!(files.case.len().max(files.tree.len()) <= FILE_LIMIT, "{}", input.name);
        let line = judge(&files.case, &files.plan, &files.tree);
        let expected = if input.name.contains("broken") { "fault 22 " } else { "optimal " };
        assert!(line.starts_with(expected), "{}: {line}", input.name);
    }
}
