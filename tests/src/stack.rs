//! How much stack a call takes: it runs on a thread whose stack was filled with one byte, and the bytes that it changed are counted.

use crate::generate::def::pin;
use crate::generate::{net, Shape};
use crate::library;
use crate::random::Random;
use crate::reference::report::{free_points, list_of};
use crate::suite::def::{long::chain, ENOUGH};
use crate::suite::repair::worst;
use std::ffi::c_void;

extern "C" {
    fn pthread_attr_init(attributes: *mut c_void) -> i32;
    fn pthread_attr_setstack(attributes: *mut c_void, stack: *mut c_void, size: usize) -> i32;
    fn pthread_create(
        thread: *mut usize,
        attributes: *const c_void,
        run: extern "C" fn(*mut c_void) -> *mut c_void,
        argument: *mut c_void,
    ) -> i32;
    fn pthread_join(thread: usize, result: *mut *mut c_void) -> i32;
}

const SIZE: usize = 1 << 20;
const FILL: u8 = 0xa5;

extern "C" fn run<F: FnMut()>(call: *mut c_void) -> *mut c_void {
    // SAFETY: `taken` hands over a call that lives until the thread has ended.
    unsafe { (*call.cast::<F>())() };
    std::ptr::null_mut()
}

/// The bytes of stack that a thread takes to run the call.
fn taken<F: FnMut()>(mut call: F) -> usize {
    // 16 bytes an entry, as a stack is aligned
    let mut stack = vec![u128::from_ne_bytes([FILL; 16]); SIZE / 16];
    let mut attributes = [0u64; 16];
    let mut thread = 0;
    // SAFETY: the attributes are larger than the C library's, and stack and call outlive the thread.
    unsafe {
        let attributes: *mut c_void = attributes.as_mut_ptr().cast();
        assert_eq!(pthread_attr_init(attributes), 0);
        let lent = stack.as_mut_ptr().cast();
        assert_eq!(pthread_attr_setstack(attributes, lent, SIZE), 0);
        let call: *mut F = &mut call;
        let made = pthread_create(&mut thread, attributes, run::<F>, call.cast());
        assert_eq!(made, 0);
        assert_eq!(pthread_join(thread, std::ptr::null_mut()), 0);
    }
    let bytes = stack.iter().flat_map(|entry| entry.to_ne_bytes());
    SIZE - bytes.take_while(|&byte| byte == FILL).count()
}

/// The most that def takes: for nets of 256 nodes, and for longer texts, which it reads again and refuses for a word, a point, a pin, or all their nodes.
fn of_def() -> usize {
    let (full, longer) = (chain(256), chain(700));
    let (near, far) = (pin((9, 0, 1), 1), pin((600, 0, 1), 1));
    let lost = pin((9, 9, 9), 1);
    let mut out = vec![0; ENOUGH];
    let texts = [
        (&full, " ;", near, 0),
        (&full, " ;", lost, 19),
        (&full, " x", near, 17),
        (&longer, " ;", far, 4),
        (&longer, " ;", lost, 19),
        (&longer, " NEW metal1 ( 600 0 ) ( 600 1 ) x", far, 17),
        (&longer, " ( 600 0 ) ;", far, 18),
    ];
    let taken = texts.map(|(chain, behind, pins, number)| {
        let text = [chain, behind].concat();
        taken(|| {
            let answer = library::def(text.as_bytes(), 0, &pins, &[0; 8], &mut out);
            assert_eq!(answer.number, number);
        })
    });
    taken.into_iter().max().unwrap()
}

/// The most that report takes with jumpers at all points where they may stand.
fn of_long_lists() -> usize {
    let mut random = Random::new(5);
    let kinds = [
        (1, 0, 0),
        (1, 16, 0),
        (1, 16, 1),
        (2, 0, 0),
        (2, 16, 0),
        (2, 16, 1),
    ];
    let taken = kinds.map(|(version, obstacles, clearance)| {
        let shape = Shape {
            version,
            nodes: 256,
            longest: 200,
            obstacles,
        };
        let net = net(&mut random, shape);
        let (file, list) = (net.file(), list_of(&free_points(&net, 16, clearance)));
        let records = 256 + list.len() / library::JUMPER_BYTES;
        let mut out = vec![0; library::RECORD_BYTES * records];
        taken(|| {
            let answer = library::report(16, 0, clearance, &file, &list, &mut out);
            assert_eq!(answer.number, 0);
        })
    });
    taken.into_iter().max().unwrap()
}

/// Each call with the most stack that it took, on nets of 256 nodes, without a clearance and with one, and what the header says is enough.
pub fn of_calls() -> [(&'static str, usize, usize); 5] {
    let mut random = Random::new(4);
    let mut nets: Vec<_> = worst().into_iter().map(|(_, net)| net).collect();
    for (version, obstacles) in [(1, 0), (1, 16), (1, 256), (2, 0), (2, 16), (2, 256)] {
        let shape = Shape {
            version,
            nodes: 256,
            longest: 200,
            obstacles,
        };
        nets.push(net(&mut random, shape));
    }
    let none = taken(|| {});
    let mut most = [0; 4];
    for (net, clearance) in nets.iter().flat_map(|net| [(net, 0), (net, 1)]) {
        let (file, limit) = (net.file(), (net.total_weight() / 7) as u32);
        let (mut out, mut list) = (vec![0; 12 * 1024], vec![0; library::REPAIR_MOST]);
        let mut count = 0;
        let repair = taken(|| {
            let answer = library::repair(16, limit, clearance, &file, &mut list);
            assert!([library::DONE, library::REFUSED_NO_LEGAL_SET].contains(&answer.number));
            count = answer.count as usize;
        });
        list.truncate(library::JUMPER_BYTES * count);
        let [nodes, wires, obstacles] = &net.sections();
        let write = taken(|| {
            let answer = library::write(net.version, nodes, wires, obstacles, &mut out);
            assert_eq!(answer.number, 0);
        });
        let calls = [
            taken(|| assert_eq!(library::read(&file).number, 0)),
            write,
            taken(|| {
                let answer = library::report(16, limit, clearance, &file, &list, &mut out);
                assert_eq!(answer.number, 0);
            }),
            repair,
        ];
        for (most, taken) in most.iter_mut().zip(calls) {
            *most = taken.max(*most);
        }
    }
    most[2] = most[2].max(of_long_lists());
    let [read, write, report, repair] = most.map(|most| most - none);
    [
        ("read", read, library::READ_STACK),
        ("write", write, library::WRITE_STACK),
        ("report", report, library::REPORT_STACK),
        ("repair", repair, library::REPAIR_STACK),
        ("def", of_def() - none, library::DEF_STACK),
    ]
}
