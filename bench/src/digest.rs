//! A number for many, as bench/driver.c makes it: the sum over all places of
//! what stands there, mixed with the place.

pub fn mixed(place: u64, word: u64) -> u64 {
    let mut mix =
        (word ^ place.wrapping_mul(0x9e37_79b9_7f4a_7c15)).wrapping_mul(0xbf58_476d_1ce4_e5b9);
    mix = (mix ^ (mix >> 32)).wrapping_mul(0x94d0_49bb_1331_11eb);
    mix ^ (mix >> 29)
}

/// Of memory, word by word; its bytes are a multiple of eight.
pub fn of_memory(memory: &[u8]) -> u64 {
    let mut digest = 0u64;
    for (number, word) in memory.chunks_exact(8).enumerate() {
        let word = u64::from_le_bytes(word.try_into().expect("eight bytes"));
        digest = digest.wrapping_add(mixed(8 * number as u64, word));
    }
    digest
}
