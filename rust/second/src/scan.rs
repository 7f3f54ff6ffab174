//! A value that is read from its front, piece by piece.

use crate::text;

/// What is left of the value.
pub(crate) struct Scan<'a>(pub(crate) &'a [u8]);

impl<'a> Scan<'a> {
    pub(crate) fn expect(&mut self, front: &[u8]) -> Option<()> {
        self.0 = self.0.strip_prefix(front)?;
        Some(())
    }

    pub(crate) fn expect_end(&self) -> Option<()> {
        self.0.is_empty().then_some(())
    }

    pub(crate) fn take_while(&mut self, good: impl Fn(u8) -> bool) -> &'a [u8] {
        let length = self.0.iter().take_while(|&&b| good(b)).count();
        let (front, rest) = self.0.split_at(length);
        self.0 = rest;
        front
    }

    /// All digits here, as a number of at most so many of them.
    pub(crate) fn decimal(&mut self, most_digits: usize) -> Option<u64> {
        text::decimal(self.take_while(|b| b.is_ascii_digit()), most_digits)
    }

    /// A comma between parameters, and the spaces and tabs that may follow it (paper 01, end of
    /// "X-Ouinet-Sig0").
    pub(crate) fn comma(&mut self) -> Option<()> {
        self.expect(b",")?;
        self.0 = &self.0[text::leading_blanks(self.0)..];
        Some(())
    }

    /// What stands between a quote here and the next one.
    pub(crate) fn quoted(&mut self) -> Option<&'a [u8]> {
        self.expect(b"\"")?;
        let inner = self.take_while(|b| b != b'"');
        self.expect(b"\"")?;
        Some(inner)
    }
}
