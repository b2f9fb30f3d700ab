//! The sample farm, the worked example and a meter month as files have them,
//! and damaged: cut, with a byte changed, with a record left out or doubled.

use std::io::Error;
use std::path::Path;

use super::{Group, Program};
use crate::book::RECORD_BYTES;

const OTHER_BYTE: u8 = 0x85;

pub fn damaged(root: &Path, farm: &Path) -> std::io::Result<Group> {
    let read = |path: &Path| {
        std::fs::read(path)
            .map_err(|error| Error::new(error.kind(), format!("{}: {error}", path.display())))
    };
    let farm = read(farm)?;
    let worked = read(&root.join("crates/years/stdin"))?;
    let meter = read(&root.join("crates/month/stdin"))?;
    let mut group = Group::new("damaged files", 590, 130, 110);
    group.add(Program::Years, "no records", Vec::new());
    group.add(Program::Month, "no month", Vec::new());
    cut_and_changed(&mut group, Program::Years, "the sample farm", &farm, 61);
    cut_and_changed(
        &mut group,
        Program::Years,
        "the worked example",
        &worked,
        19,
    );
    left_out_and_doubled(&mut group, "the sample farm", &farm, 5);
    left_out_and_doubled(&mut group, "the worked example", &worked, 1);
    cut_and_changed(&mut group, Program::Month, "the meter month", &meter, 67);
    Ok(group)
}

/// The whole, and at every step a cut and a changed byte.
fn cut_and_changed(group: &mut Group, program: Program, name: &str, whole: &[u8], step: usize) {
    group.add(program, name, whole.to_vec());
    for at in (0..whole.len()).step_by(step) {
        group.add(program, format!("{name} cut at {at}"), whole[..at].to_vec());
        let mut changed = whole.to_vec();
        changed[at] = OTHER_BYTE;
        group.add(program, format!("{name} changed at {at}"), changed);
    }
}

/// At every step a record left out, and one doubled at the end.
fn left_out_and_doubled(group: &mut Group, name: &str, whole: &[u8], step: usize) {
    for at in (0..whole.len()).step_by(RECORD_BYTES * step) {
        let record = &whole[at..at + RECORD_BYTES];
        let rest = &whole[at + RECORD_BYTES..];
        group.add(
            Program::Years,
            format!("{name} without the record at {at}"),
            [&whole[..at], rest].concat(),
        );
        group.add(
            Program::Years,
            format!("{name} with the record at {at} again"),
            [whole, record].concat(),
        );
    }
}
