//! The words of a DEF text: runs of bytes between blanks. A comment is no word, a quoted string is one.

#[derive(Clone, Copy)]
pub struct Word<'a> {
    pub bytes: &'a [u8],
    /// The place of its first byte in the text.
    pub at: usize,
}

impl Word<'_> {
    pub fn is(&self, word: &str) -> bool {
        self.bytes == word.as_bytes()
    }

    pub fn any(&self, words: &[&str]) -> bool {
        words.iter().any(|word| self.is(word))
    }

    pub fn end(&self) -> usize {
        self.at + self.bytes.len()
    }
}

#[derive(Clone)]
pub struct Words<'a> {
    text: &'a [u8],
    at: usize,
}

impl<'a> Words<'a> {
    pub fn of(text: &'a [u8]) -> Words<'a> {
        Words { text, at: 0 }
    }

    fn skip(&mut self, over: fn(u8) -> bool) {
        let rest = &self.text[self.at..];
        self.at += rest.iter().position(|&b| !over(b)).unwrap_or(rest.len());
    }

    /// Behind the quote that closes the string begun here, if one does.
    fn closed(&self) -> Option<usize> {
        let mut at = self.at + 1;
        while at < self.text.len() {
            match self.text[at] {
                b'"' => return Some(at + 1),
                b'\\' => at += 2,
                _ => at += 1,
            }
        }
        None
    }
}

fn blank(b: u8) -> bool {
    matches!(b, b'\t' | b'\n' | b'\r' | b' ')
}

impl<'a> Iterator for Words<'a> {
    type Item = Word<'a>;

    fn next(&mut self) -> Option<Word<'a>> {
        self.skip(blank);
        while self.text.get(self.at) == Some(&b'#') {
            self.skip(|b| b != b'\n');
            self.skip(blank);
        }
        let at = self.at;
        if *self.text.get(at)? == b'"' {
            self.at = self.closed().unwrap_or(at);
        }
        self.skip(|b| !blank(b));
        Some(Word {
            bytes: &self.text[at..self.at],
            at,
        })
    }
}
