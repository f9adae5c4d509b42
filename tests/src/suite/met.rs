//! How often each answer was met, in each version.

/// Answers are numbered up to this.
const LAST: usize = 20;

/// The version that a file names, or 0 if it is too short to name one.
pub fn version_of(file: &[u8]) -> u32 {
    match file {
        [low, high, ..] => u16::from_le_bytes([*low, *high]).into(),
        _ => 0,
    }
}

/// Counts by version, those of versions that there are not at 0, and by number.
#[derive(Debug, Default)]
pub struct Met([[usize; LAST + 1]; 3]);

impl Met {
    pub fn add(&mut self, version: u32, number: u32) {
        let row = if version > 2 { 0 } else { version };
        self.0[row as usize][number as usize] += 1;
    }

    pub fn count(&self, version: usize, number: usize) -> usize {
        self.0[version][number]
    }

    /// Each of these numbers, and no other, was met in the version, each in one of so many cases or more often.
    pub fn often(&self, version: usize, numbers: &[usize], one_in: usize, cases: usize) {
        for (number, &met) in self.0[version].iter().enumerate() {
            if numbers.contains(&number) {
                let told = format!("{number} was met {met} times in version {version}");
                assert!(met * one_in > cases, "{told}");
            } else {
                assert_eq!(met, 0, "{number} in version {version}");
            }
        }
    }
}
