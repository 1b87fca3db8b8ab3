//! Names of a code file.

use std::fmt;

/// A name of a code file: eight bytes, which blanks fill.
///
/// Its text has no blanks at its end, and `?` in place of each byte that is not printed, as that of a
/// report.
#[derive(Clone, Copy, Debug, PartialEq, Eq, PartialOrd, Ord, Hash)]
pub struct Name(pub [u8; 8]);

impl fmt::Display for Name {
    fn fmt(&self, f: &mut fmt::Formatter<'_>) -> fmt::Result {
        let printed = self.0.map(|byte| match byte {
            b' '..=b'~' => char::from(byte),
            _ => '?',
        });
        f.pad(printed.iter().collect::<String>().trim_end_matches(' '))
    }
}

impl PartialEq<str> for Name {
    fn eq(&self, text: &str) -> bool {
        let name = self.0.iter().rposition(|byte| *byte != b' ');
        self.0[..name.map_or(0, |last| last + 1)] == *text.as_bytes()
    }
}

impl PartialEq<&str> for Name {
    fn eq(&self, text: &&str) -> bool {
        *self == **text
    }
}
