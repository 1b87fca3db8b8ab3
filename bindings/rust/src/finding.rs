//! What a check finds in files, read back from the document of the library.

use crate::Name;
use std::fmt;

/// How much a [`Finding`] weighs. Its text is the word that its line in the report begins with.
#[derive(Clone, Copy, Debug, PartialEq, Eq, Hash)]
#[non_exhaustive]
pub enum Weight {
    /// It is certain, and the link may be another one than was meant.
    Warning,
    /// It is certain, and changes no link.
    Harmless,
    /// It is a guess.
    Note,
}

impl Weight {
    const ALL: [Weight; 3] = [Weight::Warning, Weight::Harmless, Weight::Note];

    fn word(self) -> &'static str {
        match self {
            Weight::Warning => "warning",
            Weight::Harmless => "harmless",
            Weight::Note => "note",
        }
    }
}

impl fmt::Display for Weight {
    fn fmt(&self, f: &mut fmt::Formatter<'_>) -> fmt::Result {
        f.write_str(self.word())
    }
}

/// What a check finds in files and is no fault.
#[derive(Clone, Debug, PartialEq, Eq)]
#[non_exhaustive]
pub struct Finding {
    /// How much it weighs.
    pub weight: Weight,
    /// What the report calls the file.
    pub path: String,
    /// The name of the segment that it is in.
    pub segment: Option<Name>,
    /// The index of the record in the segment's link information, from 0.
    pub record: Option<usize>,
    /// What is said of it.
    pub text: String,
}

/// What is left of a line of the document.
struct Line<'t>(&'t str);

impl Line<'_> {
    /// Goes past these characters, if they come next.
    fn skip(&mut self, text: &str) -> Option<()> {
        self.0 = self.0.strip_prefix(text)?;
        Some(())
    }

    fn next(&mut self) -> Option<char> {
        let mut chars = self.0.chars();
        let c = chars.next()?;
        self.0 = chars.as_str();
        Some(c)
    }

    /// The rest of a string, whose first quote is read.
    fn text(&mut self) -> Option<String> {
        let mut text = String::new();
        loop {
            match self.next()? {
                '"' => return Some(text),
                '\\' => text.push(self.escaped()?),
                c => text.push(c),
            }
        }
    }

    /// The character that a backslash, which is read, begins.
    fn escaped(&mut self) -> Option<char> {
        match self.next()? {
            c @ ('"' | '\\' | '/') => Some(c),
            'b' => Some('\u{8}'),
            't' => Some('\t'),
            'n' => Some('\n'),
            'f' => Some('\u{C}'),
            'r' => Some('\r'),
            'u' => self.numbered(),
            _ => None,
        }
    }

    /// The character of a number whose `\u` is read: of two numbers, where it is above U+FFFF.
    fn numbered(&mut self) -> Option<char> {
        let first = self.unit()?;
        if let Some(c) = char::from_u32(first.into()) {
            return Some(c);
        }
        self.skip("\\u")?;
        let units = [first, self.unit()?];
        char::decode_utf16(units).next()?.ok()
    }

    /// A number of four hexadecimal digits.
    fn unit(&mut self) -> Option<u16> {
        let digits = self.0.get(..4)?;
        self.0 = self.0.get(4..)?;
        if !digits.bytes().all(|digit| digit.is_ascii_hexdigit()) {
            return None;
        }
        u16::from_str_radix(digits, 16).ok()
    }

    /// A number, or `None` in place of `null`.
    fn number(&mut self) -> Option<Option<usize>> {
        if self.skip("null").is_some() {
            return Some(None);
        }
        let end = self.0.find(|c: char| !c.is_ascii_digit())?;
        let number = self.0.get(..end)?.parse().ok()?;
        self.0 = self.0.get(end..)?;
        Some(Some(number))
    }

    /// The bytes of a name, or `None` in place of `null`.
    fn name(&mut self) -> Option<Option<Name>> {
        if self.skip("null").is_some() {
            return Some(None);
        }
        self.skip("{\"name\":\"")?;
        self.text()?;
        self.skip(",\"name_hex\":\"")?;
        let digits = self.text()?;
        self.skip("}")?;
        let mut name = [0; 8];
        for (index, byte) in name.iter_mut().enumerate() {
            *byte = u8::from_str_radix(digits.get(2 * index..2 * index + 2)?, 16).ok()?;
        }
        Some(Some(Name(name)))
    }

    fn finding(mut self) -> Option<Finding> {
        self.skip("{\"weight\":\"")?;
        let word = self.text()?;
        let weight = Weight::ALL.into_iter().find(|one| one.word() == word)?;
        self.skip(",\"path\":\"")?;
        let path = self.text()?;
        self.skip(",\"segment\":")?;
        let segment = self.name()?;
        self.skip(",\"record\":")?;
        let record = self.number()?;
        self.skip(",\"text\":\"")?;
        let text = self.text()?;
        self.skip("}")?;
        Some(Finding {
            weight,
            path,
            segment,
            record,
            text,
        })
    }
}

/// The items of a document, each in a line of its own; `None` where one is none.
pub(crate) fn findings_in(document: &str) -> Option<Vec<Finding>> {
    document
        .lines()
        .filter(|line| line.starts_with("{\"weight\":"))
        .map(|line| Line(line).finding())
        .collect()
}

#[cfg(test)]
mod tests {
    use super::*;

    /// The text that a document has for a path.
    fn path_in(text: &str) -> Option<String> {
        let rest = "\"segment\":null,\"record\":null,\"text\":\"\"}";
        let line = format!("{{\"weight\":\"note\",\"path\":\"{text}\",{rest}\n");
        let found = findings_in(&format!("{{\"findings\":[\n{line}]}}\n"))?;
        found.into_iter().next().map(|finding| finding.path)
    }

    #[test]
    fn each_escape_of_json_is_its_character() {
        let letters = [
            (r#"\""#, '"'),
            (r"\\", '\\'),
            (r"\/", '/'),
            (r"\b", '\u{8}'),
            (r"\f", '\u{C}'),
            (r"\n", '\n'),
            (r"\r", '\r'),
            (r"\t", '\t'),
        ];
        for (text, c) in letters {
            assert_eq!(path_in(&format!("a{text}b")), Some(format!("a{c}b")));
        }
        for c in ('\0'..='\u{FFFF}').chain(['\u{10000}', '\u{1F4BE}', '\u{10FFFF}']) {
            let numbered = |write: fn(&u16) -> String| -> String {
                c.encode_utf16(&mut [0; 2]).iter().map(write).collect()
            };
            let lower = numbered(|unit| format!("\\u{unit:04x}"));
            let upper = numbered(|unit| format!("\\u{unit:04X}"));
            for text in [lower, upper] {
                assert_eq!(path_in(&format!("a{text}b")), Some(format!("a{c}b")));
            }
        }
    }

    #[test]
    fn what_is_no_string_of_json_is_no_finding() {
        let wrong = [
            r"\",
            r"\a",
            r"\0",
            r"\N",
            r"\u",
            r"\u12",
            r"\u+012",
            r"\u123g",
            r"\uD83D",
            r"\uD83Dx",
            r"\uD83D\n",
            r"\uD83D\u0041",
            r"\uD83D\uD83D",
            r"\uDCBE",
            r"\uDCBE\uD83D",
        ];
        for text in wrong {
            assert_eq!(path_in(text), None, "{text}");
        }
    }
}
