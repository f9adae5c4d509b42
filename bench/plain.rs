//! The plain program behind the calls of antenna.h, named `plain_..`: build.rs makes a library of it like the proved one.

#![no_std]

#[path = "../tests/src/answer.rs"]
mod answer;
#[path = "../include/antenna.rs"]
mod library;
#[path = "../tests/src/plain/mod.rs"]
mod plain;

use core::slice::{from_raw_parts, from_raw_parts_mut};
use library::Answer;

#[panic_handler]
fn panic(_: &core::panic::PanicInfo) -> ! {
    loop {}
}

#[no_mangle]
pub unsafe extern "C" fn plain_read(file: *const u8, file_len: usize) -> Answer {
    plain::net::read(from_raw_parts(file, file_len))
}

#[no_mangle]
pub unsafe extern "C" fn plain_write(
    version: u32,
    nodes: *const u8,
    nodes_len: usize,
    wires: *const u8,
    wires_len: usize,
    obstacles: *const u8,
    obstacles_len: usize,
    out: *mut u8,
    out_len: usize,
) -> Answer {
    plain::net::write(
        version,
        from_raw_parts(nodes, nodes_len),
        from_raw_parts(wires, wires_len),
        from_raw_parts(obstacles, obstacles_len),
        from_raw_parts_mut(out, out_len),
    )
}

#[no_mangle]
pub unsafe extern "C" fn plain_report(
    stage: u32,
    limit: u32,
    clearance: u16,
    file: *const u8,
    file_len: usize,
    jumpers: *const u8,
    jumpers_len: usize,
    out: *mut u8,
    out_len: usize,
) -> Answer {
    let (file, jumpers) = (
        from_raw_parts(file, file_len),
        from_raw_parts(jumpers, jumpers_len),
    );
    plain::report::report(
        stage,
        limit,
        clearance,
        file,
        jumpers,
        from_raw_parts_mut(out, out_len),
    )
}

#[no_mangle]
pub unsafe extern "C" fn plain_repair(
    stage: u32,
    limit: u32,
    clearance: u16,
    file: *const u8,
    file_len: usize,
    out: *mut u8,
    out_len: usize,
) -> Answer {
    let (file, out) = (
        from_raw_parts(file, file_len),
        from_raw_parts_mut(out, out_len),
    );
    plain::repair::repair(stage, limit, clearance, file, out)
}

#[no_mangle]
pub unsafe extern "C" fn plain_def(
    text: *const u8,
    text_len: usize,
    place: usize,
    pins: *const u8,
    pins_len: usize,
    obstacles: *const u8,
    obstacles_len: usize,
    out: *mut u8,
    out_len: usize,
) -> Answer {
    plain::def::def(
        from_raw_parts(text, text_len),
        place,
        from_raw_parts(pins, pins_len),
        from_raw_parts(obstacles, obstacles_len),
        from_raw_parts_mut(out, out_len),
    )
}
