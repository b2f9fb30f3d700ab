//! The proved library in this process, by its C face (include/cabinet.h): on
//! x86-64 alone, for which it is built.

use crate::cabinet::{Month, Posted, Year, BOOK_BYTES};

#[link(name = "cabinet", kind = "static")]
extern "C" {
    fn cabinet_empty(memory: *mut u8, bytes: usize) -> bool;
    fn cabinet_post(book: *mut u8, bytes: usize, posted: *const u8, length: usize) -> Posted;
    fn cabinet_year(book: *const u8, bytes: usize, year: u64) -> Year;
    fn cabinet_month(
        flows: *const f32,
        flow_count: usize,
        contents: *const f32,
        content_count: usize,
        states: *const u8,
        state_count: usize,
        efficiency: u32,
    ) -> Month;
    fn cabinet_feet_month(
        flows: *const f32,
        flow_count: usize,
        contents: *const f32,
        content_count: usize,
        temperatures: *const f32,
        temperature_count: usize,
        pressures: *const f32,
        pressure_count: usize,
        states: *const u8,
        state_count: usize,
        efficiency: u32,
    ) -> Month;
}

/// A book that only `cabinet_empty` and `cabinet_post` write, which is all that
/// the contracts ask.
pub struct Book(Box<[u8]>);

impl Book {
    pub fn empty() -> Book {
        let mut book = Book(vec![0; BOOK_BYTES].into_boxed_slice());
        book.clear();
        book
    }

    pub fn clear(&mut self) {
        let emptied = unsafe { cabinet_empty(self.0.as_mut_ptr(), self.0.len()) };
        assert!(emptied, "a book's memory has a book's size");
    }

    pub fn post(&mut self, posted: &[u8]) -> Posted {
        unsafe {
            cabinet_post(
                self.0.as_mut_ptr(),
                self.0.len(),
                posted.as_ptr(),
                posted.len(),
            )
        }
    }

    pub fn year(&self, year: u64) -> Year {
        unsafe { cabinet_year(self.0.as_ptr(), self.0.len(), year) }
    }
}

pub fn month(flows: &[f32], contents: &[f32], states: &[u8], efficiency: u32) -> Month {
    unsafe {
        cabinet_month(
            flows.as_ptr(),
            flows.len(),
            contents.as_ptr(),
            contents.len(),
            states.as_ptr(),
            states.len(),
            efficiency,
        )
    }
}

/// The lists are the flows, the contents, the temperatures and the pressures.
pub fn feet_month(lists: [&[f32]; 4], states: &[u8], efficiency: u32) -> Month {
    let [flows, contents, temperatures, pressures] = lists;
    unsafe {
        cabinet_feet_month(
            flows.as_ptr(),
            flows.len(),
            contents.as_ptr(),
            contents.len(),
            temperatures.as_ptr(),
            temperatures.len(),
            pressures.as_ptr(),
            pressures.len(),
            states.as_ptr(),
            states.len(),
            efficiency,
        )
    }
}
