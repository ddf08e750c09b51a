//! A place in a text, moved on by what is read there.

pub(crate) struct Cursor<'a> {
    rest: &'a [u8],
}

impl<'a> Cursor<'a> {
    pub fn new(text: &'a [u8]) -> Self {
        Cursor { rest: text }
    }

    pub fn at_end(&self) -> bool {
        self.rest.is_empty()
    }

    /// What is not yet read.
    pub fn rest(&self) -> &'a [u8] {
        self.rest
    }

    /// Goes past `word` if it comes next, and says whether it did.
    #[inline]
    pub fn take(&mut self, word: &[u8]) -> bool {
        match self.rest.strip_prefix(word) {
            Some(rest) => {
                self.rest = rest;
                true
            }
            None => false,
        }
    }

    #[inline]
    pub fn expect(&mut self, word: &[u8]) -> Option<()> {
        self.take(word).then_some(())
    }

    /// A decimal number of at most `most` digits (18 at the utmost), without a leading zero except in 0 itself.
    #[inline]
    pub fn number(&mut self, most: usize) -> Option<i64> {
        let mut value = 0;
        let mut digits = 0;
        while let Some(digit) = self.rest.get(digits).filter(|byte| byte.is_ascii_digit()) {
            if digits == most || (digits == 1 && value == 0) {
                return None;
            }
            value = 10 * value + i64::from(digit - b'0');
            digits += 1;
        }
        self.rest = &self.rest[digits..];
        (digits > 0).then_some(value)
    }

    /// A number with a minus sign if negative; 0 has none.
    pub fn signed(&mut self, most: usize) -> Option<i64> {
        if self.take(b"-") {
            self.number(most).filter(|&value| value > 0).map(|value| -value)
        } else {
            self.number(most)
        }
    }
}
