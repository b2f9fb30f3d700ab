//! Gaps of one to seven hours: near both ends of a month, near each other,
//! of flow, of content and of both. No two hours are alike, so that it shows
//! which ones an average is of.

use super::Group;
use crate::hours::{Hours, DEVICE_OUT, LENGTHS, NEITHER, NO_CONTENT, NO_FLOW};

const KINDS: [u8; 4] = [NO_FLOW, NO_CONTENT, NEITHER, NEITHER | DEVICE_OUT];

pub fn gaps() -> Group {
    let mut group = Group::new("gaps", 590, 590, 280);
    for kind in KINDS {
        for length in 1..=7 {
            for distance in 0..=5 {
                near_an_end(&mut group, kind, length, distance);
            }
        }
    }
    for kinds in [
        [NO_FLOW, NO_FLOW],
        [NO_CONTENT, NO_CONTENT],
        [NO_FLOW, NO_CONTENT],
        [NEITHER, NO_FLOW],
        [NO_FLOW, NEITHER],
    ] {
        for lengths in [[1, 1], [1, 5], [5, 1], [5, 5], [5, 6], [6, 5], [2, 3]] {
            for distance in 0..=5 {
                beside(&mut group, kinds, lengths, distance);
            }
        }
    }
    within(&mut group);
    group
}

fn near_an_end(group: &mut Group, kind: u8, length: usize, distance: usize) {
    let count = LENGTHS[(length + distance) % LENGTHS.len()];
    let start = distance;
    let end = count - distance;
    for gap in [start..start + length, end - length..end] {
        let mut month = Hours::uneven(count);
        month.states[gap.clone()].fill(kind);
        group.hours(format!("state {kind} in {gap:?} of {count}"), &month);
    }
}

/// Two gaps with so many hours between them.
fn beside(group: &mut Group, kinds: [u8; 2], lengths: [usize; 2], distance: usize) {
    let start = 100 + 10 * lengths[0] + distance;
    let between = start + lengths[0];
    let second = between + distance;
    let mut month = Hours::uneven(672);
    month.states[start..between].fill(kinds[0]);
    month.states[second..second + lengths[1]].fill(kinds[1]);
    group.hours(
        format!("states {kinds:?}, lengths {lengths:?}, {distance} hours between"),
        &month,
    );
}

/// Runs whose hours do not all lack the same: an hour without both counts
/// nothing, and is one of either run.
fn within(group: &mut Group) {
    for run in [
        vec![1, 3, 1],
        vec![2, 3, 2],
        vec![1, 1, 3, 1, 1],
        vec![1, 1, 3, 1, 1, 1],
        vec![3, 1, 1],
        vec![1, 2],
        vec![2, 1],
        vec![1, 2, 1],
        vec![3, 3, 3, 3, 3],
        vec![3, 3, 3, 3, 3, 3],
        vec![1, 5, 1],
        vec![2, 6, 7],
        vec![1, 4, 1],
        vec![1, 0, 1],
        vec![1, 1, 1, 1, 1, 2],
        vec![5, 5, 5, 5, 5],
        vec![4, 1, 4],
    ] {
        for start in [4, 250, 667 - run.len()] {
            let mut month = Hours::uneven(672);
            month.states[start..start + run.len()].copy_from_slice(&run);
            group.hours(format!("states {run:?} from hour {start}"), &month);
        }
    }
}
