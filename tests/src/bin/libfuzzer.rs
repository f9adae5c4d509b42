//! The fuzz target under libFuzzer, which has the main function: `make fuzz` builds and runs it.

#![no_main]

use antenna_tests::random::Random;
use antenna_tests::suite::fuzz::{mutate, one, seed};

extern "C" {
    fn LLVMFuzzerMutate(data: *mut u8, size: usize, most: usize) -> usize;
}

#[no_mangle]
extern "C" fn LLVMFuzzerTestOneInput(data: *const u8, size: usize) -> i32 {
    // SAFETY: libFuzzer lends size bytes.
    let bytes = unsafe { std::slice::from_raw_parts(data, size) };
    one(bytes);
    0
}

/// libFuzzer's own mutations, ours, and now and then a net from the generators.
#[no_mangle]
extern "C" fn LLVMFuzzerCustomMutator(
    data: *mut u8,
    size: usize,
    most: usize,
    start: u32,
) -> usize {
    let mut random = Random::new(u64::from(start));
    let choice = random.below(8);
    if choice < 5 {
        // SAFETY: libFuzzer lends most bytes, of which size are filled.
        return unsafe { LLVMFuzzerMutate(data, size, most) };
    }
    // SAFETY: as above.
    let lent = unsafe { std::slice::from_raw_parts_mut(data, most) };
    let mut bytes = if choice < 7 {
        lent[..size].to_vec()
    } else {
        seed(&mut random)
    };
    mutate(&mut random, &mut bytes);
    bytes.truncate(most);
    lent[..bytes.len()].copy_from_slice(&bytes);
    bytes.len()
}
