//! The calls and constants of `antenna.h` for Rust; what they mean stands there. A slice goes over as its pointer and length.

// a program uses those it needs
#![allow(dead_code)]

pub const VERSION_MAJOR: u32 = 0;
pub const VERSION_MINOR: u32 = 6;

pub const NEWEST_VERSION: u32 = 2;

pub const JUMPER_BYTES: usize = 3;
pub const RECORD_BYTES: usize = 12;
pub const PIN_BYTES: usize = 6;
pub const REPAIR_MOST: usize = 2 * 255 * JUMPER_BYTES;

pub const READ_STACK: usize = 512;
pub const WRITE_STACK: usize = 512;
pub const REPORT_STACK: usize = 4096;
pub const REPAIR_STACK: usize = 32768;
pub const DEF_STACK: usize = 8192;

pub const DONE: u32 = 0;
pub const REFUSED_STAGE: u32 = 1;
pub const REFUSED_HEAD: u32 = 2;
pub const REFUSED_PAIRS: u32 = 3;
pub const REFUSED_NODE_SECTION: u32 = 4;
pub const REFUSED_WIRE_SECTION: u32 = 5;
pub const REFUSED_OBSTACLE_SECTION: u32 = 6;
pub const REFUSED_NODE_FLAGS: u32 = 7;
pub const REFUSED_WIRE_PARENT: u32 = 8;
pub const REFUSED_WIRE_RANGE: u32 = 9;
pub const REFUSED_WIRE_ENDS: u32 = 10;
pub const REFUSED_OBSTACLE_CORNERS: u32 = 11;
pub const REFUSED_JUMPER_LIST: u32 = 12;
pub const REFUSED_JUMPER_POINT: u32 = 13;
pub const REFUSED_JUMPER_BARRED: u32 = 14;
pub const REFUSED_NO_LEGAL_SET: u32 = 15;
pub const REFUSED_BUFFER: u32 = 16;
pub const REFUSED_DEF_FORM: u32 = 17;
pub const REFUSED_DEF_POINT: u32 = 18;
pub const REFUSED_DEF_PIN: u32 = 19;
pub const REFUSED_OBSTACLE_LAYER: u32 = 20;

pub const FLAG_GATE: u8 = 1;
pub const FLAG_SOURCE: u8 = 2;
pub const FLAG_HARMFUL: u8 = 4;

/// What every call returns: `DONE` or the refusal; after a refusal the count is 0.
#[repr(C)]
#[derive(Clone, Copy, Debug, PartialEq, Eq)]
pub struct Answer {
    pub number: u32,
    pub place: u64,
    pub count: u64,
}

#[link(name = "antenna", kind = "static")]
extern "C" {
    fn antenna_read(file: *const u8, file_len: usize) -> Answer;
    fn antenna_write(
        version: u32,
        nodes: *const u8,
        nodes_len: usize,
        wires: *const u8,
        wires_len: usize,
        obstacles: *const u8,
        obstacles_len: usize,
        out: *mut u8,
        out_len: usize,
    ) -> Answer;
    fn antenna_report(
        stage: u32,
        limit: u32,
        clearance: u16,
        file: *const u8,
        file_len: usize,
        jumpers: *const u8,
        jumpers_len: usize,
        out: *mut u8,
        out_len: usize,
    ) -> Answer;
    fn antenna_repair(
        stage: u32,
        limit: u32,
        clearance: u16,
        file: *const u8,
        file_len: usize,
        out: *mut u8,
        out_len: usize,
    ) -> Answer;
    fn antenna_def(
        text: *const u8,
        text_len: usize,
        place: usize,
        pins: *const u8,
        pins_len: usize,
        obstacles: *const u8,
        obstacles_len: usize,
        out: *mut u8,
        out_len: usize,
    ) -> Answer;
}

pub fn read(file: &[u8]) -> Answer {
    unsafe { antenna_read(file.as_ptr(), file.len()) }
}

pub fn write(version: u32, nodes: &[u8], wires: &[u8], obstacles: &[u8], out: &mut [u8]) -> Answer {
    unsafe {
        antenna_write(
            version,
            nodes.as_ptr(),
            nodes.len(),
            wires.as_ptr(),
            wires.len(),
            obstacles.as_ptr(),
            obstacles.len(),
            out.as_mut_ptr(),
            out.len(),
        )
    }
}

pub fn report(
    stage: u32,
    limit: u32,
    clearance: u16,
    file: &[u8],
    jumpers: &[u8],
    out: &mut [u8],
) -> Answer {
    unsafe {
        antenna_report(
            stage,
            limit,
            clearance,
            file.as_ptr(),
            file.len(),
            jumpers.as_ptr(),
            jumpers.len(),
            out.as_mut_ptr(),
            out.len(),
        )
    }
}

pub fn repair(stage: u32, limit: u32, clearance: u16, file: &[u8], out: &mut [u8]) -> Answer {
    unsafe {
        antenna_repair(
            stage,
            limit,
            clearance,
            file.as_ptr(),
            file.len(),
            out.as_mut_ptr(),
            out.len(),
        )
    }
}

pub fn def(text: &[u8], place: usize, pins: &[u8], obstacles: &[u8], out: &mut [u8]) -> Answer {
    unsafe {
        antenna_def(
            text.as_ptr(),
            text.len(),
            place,
            pins.as_ptr(),
            pins.len(),
            obstacles.as_ptr(),
            obstacles.len(),
            out.as_mut_ptr(),
            out.len(),
        )
    }
}
