//! The calls of the copies that build.rs made, as closures on slices.
//!
//! A call whose parameters have changed since an earlier commit is called here as that commit's header has it: its version is
//! `BEFORE_VERSION`. Up to 0.5 report and repair take no clearance, which is 0; up to 0.3 write takes no version, and net files have
//! version 1; up to 0.2 there is no def.

use antenna_tests::Answer;
use std::mem::transmute;

type Address = unsafe extern "C" fn();

include!(concat!(env!("OUT_DIR"), "/addresses.rs"));

pub type Read = dyn Fn(&[u8]) -> Answer;
pub type Write = dyn Fn(u32, &[u8], &[u8], &[u8], &mut [u8]) -> Answer;
pub type Report = dyn Fn(u32, u32, u16, &[u8], &[u8], &mut [u8]) -> Answer;
pub type Repair = dyn Fn(u32, u32, u16, &[u8], &mut [u8]) -> Answer;
pub type Def = dyn Fn(&[u8], usize, &[u8], &[u8], &mut [u8]) -> Answer;

/// A call in each copy of a library; nothing if the library does not have it.
fn addresses(library: &str, call: &str) -> Vec<Address> {
    let mut rows = ADDRESSES.iter();
    let row = rows.find(|row| row.0 == library && row.1 == call);
    row.map_or(Vec::new(), |row| row.2.to_vec())
}

pub fn read(library: &str) -> Vec<Box<Read>> {
    type Call = unsafe extern "C" fn(*const u8, usize) -> Answer;
    let typed = |address: Address| -> Box<Read> {
        // SAFETY: so the header declares it; a slice is good for its length
        let call = unsafe { transmute::<Address, Call>(address) };
        Box::new(move |file| unsafe { call(file.as_ptr(), file.len()) })
    };
    addresses(library, "read").into_iter().map(typed).collect()
}

/// The library takes net files of this version, and this clearance.
pub fn takes(library: &str, version: u32, clearance: u16) -> bool {
    (version == 1 || !as_of(library, (0, 3))) && (clearance == 0 || !as_of(library, (0, 5)))
}

/// The library is an earlier commit's, whose header is of this version or older.
fn as_of(library: &str, version: (u32, u32)) -> bool {
    library == "before" && BEFORE_VERSION <= version
}

pub fn write(library: &str) -> Vec<Box<Write>> {
    let typed = if as_of(library, (0, 3)) {
        write_of_version_1
    } else {
        write_of_any_version
    };
    addresses(library, "write").into_iter().map(typed).collect()
}

fn write_of_any_version(address: Address) -> Box<Write> {
    type Slice = *const u8;
    type Call = unsafe extern "C" fn(
        u32,
        Slice,
        usize,
        Slice,
        usize,
        Slice,
        usize,
        *mut u8,
        usize,
    ) -> Answer;
    // SAFETY: as for read
    let call = unsafe { transmute::<Address, Call>(address) };
    Box::new(move |version, nodes, wires, obstacles, out| unsafe {
        call(
            version,
            nodes.as_ptr(),
            nodes.len(),
            wires.as_ptr(),
            wires.len(),
            obstacles.as_ptr(),
            obstacles.len(),
            out.as_mut_ptr(),
            out.len(),
        )
    })
}

/// As the header has it up to 0.3.
fn write_of_version_1(address: Address) -> Box<Write> {
    type Slice = *const u8;
    type Call =
        unsafe extern "C" fn(Slice, usize, Slice, usize, Slice, usize, *mut u8, usize) -> Answer;
    // SAFETY: as for read
    let call = unsafe { transmute::<Address, Call>(address) };
    Box::new(move |version, nodes, wires, obstacles, out| unsafe {
        assert_eq!(version, 1);
        call(
            nodes.as_ptr(),
            nodes.len(),
            wires.as_ptr(),
            wires.len(),
            obstacles.as_ptr(),
            obstacles.len(),
            out.as_mut_ptr(),
            out.len(),
        )
    })
}

pub fn report(library: &str) -> Vec<Box<Report>> {
    let typed = if as_of(library, (0, 5)) {
        report_without_clearance
    } else {
        report_with_clearance
    };
    addresses(library, "report")
        .into_iter()
        .map(typed)
        .collect()
}

fn report_with_clearance(address: Address) -> Box<Report> {
    type Slice = *const u8;
    type Call =
        unsafe extern "C" fn(u32, u32, u16, Slice, usize, Slice, usize, *mut u8, usize) -> Answer;
    // SAFETY: as for read
    let call = unsafe { transmute::<Address, Call>(address) };
    Box::new(move |stage, limit, clearance, file, jumpers, out| unsafe {
        call(
            stage,
            limit,
            clearance,
            file.as_ptr(),
            file.len(),
            jumpers.as_ptr(),
            jumpers.len(),
            out.as_mut_ptr(),
            out.len(),
        )
    })
}

/// As the header has it up to 0.5.
fn report_without_clearance(address: Address) -> Box<Report> {
    type Slice = *const u8;
    type Call =
        unsafe extern "C" fn(u32, u32, Slice, usize, Slice, usize, *mut u8, usize) -> Answer;
    // SAFETY: as for read
    let call = unsafe { transmute::<Address, Call>(address) };
    Box::new(move |stage, limit, clearance, file, jumpers, out| unsafe {
        assert_eq!(clearance, 0);
        call(
            stage,
            limit,
            file.as_ptr(),
            file.len(),
            jumpers.as_ptr(),
            jumpers.len(),
            out.as_mut_ptr(),
            out.len(),
        )
    })
}

pub fn repair(library: &str) -> Vec<Box<Repair>> {
    let typed = if as_of(library, (0, 5)) {
        repair_without_clearance
    } else {
        repair_with_clearance
    };
    addresses(library, "repair")
        .into_iter()
        .map(typed)
        .collect()
}

fn repair_with_clearance(address: Address) -> Box<Repair> {
    type Call = unsafe extern "C" fn(u32, u32, u16, *const u8, usize, *mut u8, usize) -> Answer;
    // SAFETY: as for read
    let call = unsafe { transmute::<Address, Call>(address) };
    Box::new(move |stage, limit, clearance, file, out| unsafe {
        call(
            stage,
            limit,
            clearance,
            file.as_ptr(),
            file.len(),
            out.as_mut_ptr(),
            out.len(),
        )
    })
}

/// As the header has it up to 0.5.
fn repair_without_clearance(address: Address) -> Box<Repair> {
    type Call = unsafe extern "C" fn(u32, u32, *const u8, usize, *mut u8, usize) -> Answer;
    // SAFETY: as for read
    let call = unsafe { transmute::<Address, Call>(address) };
    Box::new(move |stage, limit, clearance, file, out| unsafe {
        assert_eq!(clearance, 0);
        call(
            stage,
            limit,
            file.as_ptr(),
            file.len(),
            out.as_mut_ptr(),
            out.len(),
        )
    })
}

pub fn def(library: &str) -> Vec<Box<Def>> {
    type Slice = *const u8;
    type Call = unsafe extern "C" fn(
        Slice,
        usize,
        usize,
        Slice,
        usize,
        Slice,
        usize,
        *mut u8,
        usize,
    ) -> Answer;
    let typed = |address: Address| -> Box<Def> {
        // SAFETY: as for read
        let call = unsafe { transmute::<Address, Call>(address) };
        Box::new(move |text, place, pins, obstacles, out| unsafe {
            call(
                text.as_ptr(),
                text.len(),
                place,
                pins.as_ptr(),
                pins.len(),
                obstacles.as_ptr(),
                obstacles.len(),
                out.as_mut_ptr(),
                out.len(),
            )
        })
    };
    addresses(library, "def").into_iter().map(typed).collect()
}
