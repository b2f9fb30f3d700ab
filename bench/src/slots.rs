//! Which slot of a book each key has. The C face promises no more than that a
//! record taken fills its key's slot and nothing else; so the slots are learnt
//! from a book that is filled key by key, and held to that from then on.

use std::collections::HashMap;

use crate::book::{Record, RECORD_BYTES};
use crate::cabinet::{Posted, BOOK_BYTES};
use crate::driver::{Changed, Delivery, Driver};
use crate::full::full_book;

type Key = [u8; 4];

pub struct Slots(HashMap<Key, usize>);

impl Slots {
    /// Every key's record is taken and changes one slot, and no two the same.
    pub fn learn(driver: &mut Driver) -> Result<Slots, String> {
        let records = full_book();
        let pieces: Vec<&[u8]> = records.iter().map(Record::as_slice).collect();
        let delivered = driver.deliver(&Delivery {
            offset: 0,
            watched: true,
            pieces: &pieces,
            years: &[],
        })?;
        let mut slots = HashMap::new();
        let mut filled = [false; BOOK_BYTES / RECORD_BYTES];
        for (record, told) in records.iter().zip(delivered.records) {
            let (Posted { number: 0, .. }, Some(Changed { slots: 1, first })) =
                (told.posted, told.changed)
            else {
                return Err(format!(
                    "posting {record:02x?} to a book without it: {told:?}"
                ));
            };
            if std::mem::replace(&mut filled[first as usize], true) {
                return Err(format!(
                    "posting {record:02x?} changes slot {first}, which another key has"
                ));
            }
            slots.insert(key(record), first as usize);
        }
        if filled.contains(&false) {
            return Err("a slot has no key".to_string());
        }
        Ok(Slots(slots))
    }

    /// The slot of a record that is taken.
    pub fn of(&self, record: &[u8]) -> usize {
        self.0[&key(record)]
    }
}

/// Paper 01: the mark with its line, category, month or device. LD has LN's
/// (paper 02, (i)).
fn key(record: &[u8]) -> Key {
    let mut key = [record[0], record[1], record[2], record[3]];
    match &record[..2] {
        b"YR" => key[2..].fill(0),
        b"LN" | b"TP" | b"PE" => key[3] = 0,
        b"LD" => key = [b'L', b'N', record[2], 0],
        _ => {}
    }
    key
}
