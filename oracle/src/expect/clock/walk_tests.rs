//! One walk through all counts gives what each count alone gives.

use super::{after_each, any_load, near_count, start};
use crate::psi::Psi;
use crate::seeds::Seeds;

#[test]
fn the_walk_is_each_count_alone() {
    let mut seeds = Seeds(1);
    for _ in 0..200 {
        let load = any_load(&mut seeds);
        let start = start(&mut seeds, load);
        let mut counts: Vec<u32> = (0..8).map(|_| near_count(&mut seeds, &start)).collect();
        // one twice, and none at all, twice too
        counts.extend([counts[3], 0, 0]);
        // the last three make ticks without a cycle
        for phase in [start.phase, 64, 200, 65535] {
            let start = Psi { phase, ..start };
            let alone: Vec<Psi> = counts
                .iter()
                .map(|&count| {
                    let mut psi = start;
                    psi.advance(count);
                    psi
                })
                .collect();
            assert_eq!(after_each(start, &counts), alone, "{counts:?} from {start:?}");
        }
    }
}
