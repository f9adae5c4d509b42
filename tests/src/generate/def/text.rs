//! The text of a routing.

use super::route::Path;
use crate::random::Random;

/// A number, some with zeros in front.
fn number(random: &mut Random, number: u16) -> Vec<u8> {
    let digits = random.pick(&[1, 1, 1, 1, 1, 1, 1, 2, 4, 5]);
    format!("{number:0digits$}").into_bytes()
}

/// The words of a routing; of the coordinates that `*` can stand for it stands for so many in ten.
pub fn words(random: &mut Random, paths: &[Path], stars: u64) -> Vec<Vec<u8>> {
    let mut words: Vec<Vec<u8>> = vec!["+".into(), "ROUTED".into()];
    for (p, path) in paths.iter().enumerate() {
        if p > 0 {
            words.push("NEW".into());
        }
        words.push(format!("metal{}", path.layer).into());
        let mut before = None;
        for &(x, y) in &path.points {
            words.push("(".into());
            for (value, repeats) in [
                (x, before.is_some_and(|(before, _)| before == x)),
                (y, before.is_some_and(|(_, before)| before == y)),
            ] {
                if repeats && random.chance(stars, 10) {
                    words.push("*".into());
                } else {
                    words.push(number(random, value));
                }
            }
            words.push(")".into());
            before = Some((x, y));
        }
    }
    words.push(";".into());
    words
}

/// The blanks between two words.
fn blanks(random: &mut Random, wrapped: bool) -> Vec<u8> {
    if !wrapped {
        return vec![32];
    }
    let most = random.pick(&[1, 1, 1, 2, 5]);
    let mut blanks = Vec::new();
    for _ in 0..random.range(1, most) {
        blanks.push(random.pick(&[9, 10, 13, 32, 32]));
    }
    blanks
}

/// The words with blanks between them.
pub fn joined(random: &mut Random, words: &[Vec<u8>]) -> Vec<u8> {
    let wrapped = random.chance(1, 2);
    let mut text = Vec::new();
    for (k, word) in words.iter().enumerate() {
        if k > 0 {
            text.extend(blanks(random, wrapped));
        }
        text.extend(word);
    }
    text
}

/// The text of a routing.
pub fn text(random: &mut Random, paths: &[Path]) -> Vec<u8> {
    let stars = random.pick(&[0, 5, 10]);
    let words = words(random, paths, stars);
    joined(random, &words)
}
