//! Nothing is kept from call to call. Alone in its process, so that no other test takes memory.

mod common;

use common::{cases, Case};
use std::fs;

const CALLS: usize = 10_000;
const PAGE: usize = 4096;

fn resident() -> usize {
    let text = fs::read_to_string("/proc/self/statm").unwrap();
    text.split(' ').nth(1).unwrap().parse::<usize>().unwrap() * PAGE
}

#[test]
fn memory_stays_as_it_is() {
    let cases: Vec<Case> = cases().into_iter().filter(Case::is_small).collect();
    let mut before = 0;
    for call in 0..CALLS {
        let case = &cases[call % cases.len()];
        assert!(case.answer() == case.wanted, "{}", case.name);
        if call == CALLS / 4 {
            before = resident();
        }
    }
    let after = resident();
    assert!(after < before + (1 << 20), "from {before} to {after} bytes");
}
