//! Routes from DEF: refusals 4 to 11 and 16 to 19, the place after `;`, every byte of the file and of what is behind it.

pub mod form;
pub mod long;
mod marked;
pub mod net;

use crate::generate::def::damage::byte;
use crate::generate::def::text::{joined, words};
use crate::generate::def::{any_case, good_case, pin, route, Case};
use crate::random::Random;
use crate::reference::def::def as expected_def;
use crate::zeros::{Zeros, WHOLE};
use crate::{Answer, Def, Read};

/// The call with this many bytes lent.
pub fn compare(def: Def, case: &Case, lent: usize) -> Answer {
    let kept = case.clone();
    let before: Vec<u8> = (0..lent).map(|k| (k * 17 + 7) as u8).collect();
    let (mut out, mut expected_out) = (before.clone(), before);
    let Case {
        text,
        place,
        pins,
        obstacles,
    } = case;
    let expected = expected_def(text, *place, pins, obstacles, &mut expected_out);
    let answer = def(text, *place, pins, obstacles, &mut out);
    let told = || {
        let text = String::from_utf8_lossy(text);
        format!("{text:?} from {place}, pins {pins:?}, obstacles {obstacles:?}, lent {lent}")
    };
    assert_eq!(answer, expected, "{}", told());
    assert!(out == expected_out, "bytes differ: {}", told());
    let unchanged = *text == kept.text && *pins == kept.pins && *obstacles == kept.obstacles;
    assert!(unchanged, "a slice that is only read changed: {}", told());
    expected
}

/// The bytes that a call needs, if nothing but 16 stops it.
fn needed(case: &Case) -> usize {
    let answer = expected_def(&case.text, case.place, &case.pins, &case.obstacles, &mut []);
    match answer.number {
        16 => answer.place as usize,
        _ => 0,
    }
}

/// Enough for every file.
pub const ENOUGH: usize = 28 + 5 * 256 + 3 * 255 + 8 * 256;

/// Random calls, good and damaged, and buffers near the need; every refusal that can be met is met often.
pub fn random_texts(def: Def, cases: usize) {
    let mut random = Random::new(80);
    let mut met = [0usize; 21];
    for _ in 0..cases {
        let case = any_case(&mut random);
        let needed = needed(&case);
        let lent = match random.below(10) {
            0 => random.below(needed as u64 + 1) as usize,
            1 => needed.saturating_sub(1),
            2..=4 => needed,
            _ => needed + random.below(20) as usize,
        };
        met[compare(def, &case, lent).number as usize] += 1;
    }
    println!("def answers by number: {met:?}");
    let floors = [
        (0, 5),
        (4, 1000),
        (6, 100),
        (7, 100),
        (10, 100),
        (11, 200),
        (16, 50),
        (17, 5),
        (18, 20),
        (19, 50),
    ];
    for (number, one_in) in floors {
        assert!(met[number] * one_in > cases, "refusal {number}");
    }
    let tried: usize = floors.iter().map(|&(number, _)| met[number]).sum();
    assert_eq!(tried, cases, "a refusal that no text can meet");
}

/// Some good calls with small texts.
fn some_cases(seed: u64, count: usize) -> Vec<Case> {
    let mut random = Random::new(seed);
    let cases = std::iter::repeat_with(|| good_case(&mut random));
    cases.filter(|c| c.text.len() < 400).take(count).collect()
}

/// A text cut at every byte is refused by 17; read from every byte on it is compared.
pub fn cut_at_every_byte(def: Def) {
    for case in some_cases(81, 300) {
        let needed = needed(&case);
        for length in 0..=case.text.len() {
            let text = case.text[..length].to_vec();
            let cut = Case {
                text,
                ..case.clone()
            };
            let number = compare(def, &cut, needed).number;
            assert_eq!(number, if length < case.text.len() { 17 } else { 0 });
            let place = length;
            let from = Case {
                place,
                ..case.clone()
            };
            compare(def, &from, needed);
        }
    }
}

/// Each byte of a text in turn is changed, taken out, and another put before it.
pub fn damaged_at_every_byte(def: Def) {
    let mut random = Random::new(82);
    for mut case in some_cases(82, 200) {
        let needed = needed(&case);
        let good = case.text.clone();
        for at in 0..good.len() {
            case.text[at] = byte(&mut random);
            compare(def, &case, needed);
            case.text.remove(at);
            compare(def, &case, needed);
            case.text = good.clone();
            case.text.insert(at, byte(&mut random));
            compare(def, &case, needed);
            case.text.clone_from(&good);
        }
    }
}

/// Each two words that stand together are joined into one, which leaves the form; swapped they are compared.
pub fn words_joined(def: Def) {
    let mut random = Random::new(83);
    let mut joins = 0;
    for _ in 0..100 {
        let paths = route::any_route(&mut random);
        let words = words(&mut random, &paths, 5);
        if words.len() > 100 {
            continue;
        }
        for at in 1..words.len() {
            let mut together = words.clone();
            let next = together.remove(at);
            together[at - 1].extend(next);
            let mut swapped = words.clone();
            swapped.swap(at - 1, at);
            for (words, number) in [(together, Some(17)), (swapped, None)] {
                let case = of_text(joined(&mut random, &words));
                let answer = compare(def, &case, ENOUGH);
                assert!(number.is_none_or(|number| answer.number == number));
            }
            joins += 1;
        }
    }
    assert!(joins > 1000);
}

/// A call without pins and obstacles, from the text's start.
pub fn of_text(text: impl Into<Vec<u8>>) -> Case {
    Case {
        text: text.into(),
        place: 0,
        pins: Vec::new(),
        obstacles: Vec::new(),
    }
}

/// Every length of buffer up to the need and some bytes more.
pub fn every_length_lent(def: Def) {
    for case in some_cases(84, 200) {
        let needed = needed(&case);
        for lent in 0..needed + 10 {
            let answer = compare(def, &case, lent);
            assert_eq!(answer.number, if lent < needed { 16 } else { 0 });
        }
    }
}

/// What a good text is made into is accepted by the reader, with as many nodes as the text has.
pub fn written_is_read(def: Def, read: Read) {
    for case in some_cases(85, 500) {
        let mut out = vec![0; ENOUGH];
        let answer = def(&case.text, 0, &case.pins, &case.obstacles, &mut out);
        assert_eq!((answer.number, answer.place), (0, case.text.len() as u64));
        out.truncate(answer.count as usize);
        let nodes = u32::from_le_bytes([out[8], out[9], out[10], out[11]]) / 5;
        assert_eq!(read(&out), Answer::done(nodes as usize));
    }
}

/// Several nets in one text: each is read from the place that the one before returned, and behind the last no word is left.
pub fn several_nets(def: Def) {
    let mut random = Random::new(86);
    for _ in 0..200 {
        let mut case = of_text("");
        let mut ends = Vec::new();
        for net in some_cases(random.next(), 5) {
            // `;` and the next net's `+` are words of their own
            let blanks = random.range(1, 3) as usize;
            case.text.resize(case.text.len() + blanks, 10);
            case.text.extend(net.text);
            ends.push(case.text.len() as u64);
        }
        for &end in &ends {
            let answer = compare(def, &case, ENOUGH);
            assert_eq!((answer.number, answer.place), (0, end));
            case.place = answer.place as usize;
        }
        let length = case.text.len();
        assert_eq!(compare(def, &case, ENOUGH), Answer::refused(17, length));
    }
}

/// Texts and places past 2^32: nothing of a place or a length is lost.
pub fn very_long(def: Def) {
    let mut zeros = Zeros::new(WHOLE + (1 << 20));
    let all = zeros.bytes();
    let mut out = vec![0xa5; 100];
    let start = WHOLE + 5;
    let mut put = |text: &str, place: usize, expected: Answer| {
        let end = start + text.len();
        all[start..end].copy_from_slice(text.as_bytes());
        let pins = pin((0, 0, 1), 1);
        assert_eq!(def(&all[..end], place, &pins, &[], &mut out), expected);
    };
    let good = "+ ROUTED metal1 ( 0 0 ) ( 5 0 ) ;";
    let done = Answer {
        number: 0,
        place: (start + good.len()) as u64,
        count: 28 + 10 + 3,
    };
    put(good, start, done);
    put(
        "+ ROUTED metal1 ( 0 0 ) ( 0 0 ) ;",
        start,
        Answer::refused(18, start + 24),
    );
    put(
        "+ ROUTED metal1 ( 0 0 ) ;",
        start,
        Answer::refused(17, start + 24),
    );
    put(good, WHOLE + 4, Answer::refused(17, WHOLE + 4));
    put(good, WHOLE + 100, Answer::refused(17, start + good.len()));
    let text = good.as_bytes();
    let zeros = &all[..WHOLE];
    // as a length of 32 bits this would be no obstacle at all
    assert_eq!(def(text, 0, &[], zeros, &mut out), Answer::refused(6, 0));
    // a pin at 0 0 on layer 0
    assert_eq!(def(text, 0, zeros, &[], &mut out), Answer::refused(19, 0));
}
