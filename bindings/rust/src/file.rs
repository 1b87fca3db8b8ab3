//! What a call takes: files, each with a name or without.

use std::borrow::Cow;

/// A whole code file in memory, and what texts call it. Without a name it is `file 0`, `file 1` and
/// so on.
///
/// It is made [`from`](From) bytes, or from a name with bytes; and by [`of`](File::of) from anything else
/// that is bytes:
///
/// ```no_run
/// # fn main() -> Result<(), pslink::Error> {
/// # let (host, library) = (vec![0u8; 512], vec![0u8; 512]);
/// pslink::link(&host, [])?;
/// pslink::link(&host, [(&library).into()])?;
/// pslink::check(("host.code", &host), [("library.code", &library).into()])?;
/// let shelf: Vec<(String, Vec<u8>)> = vec![("library.code".into(), library)];
/// pslink::link(&host, shelf.iter().map(pslink::File::from))?;
/// # Ok(())
/// # }
/// ```
#[derive(Clone, Debug, PartialEq, Eq)]
pub struct File<'a> {
    pub(crate) name: Option<Cow<'a, str>>,
    pub(crate) bytes: Cow<'a, [u8]>,
}

impl<'a> File<'a> {
    /// A file without a name, of anything that is bytes.
    #[must_use]
    pub fn of<B: AsRef<[u8]> + ?Sized>(bytes: &'a B) -> File<'a> {
        File {
            name: None,
            bytes: Cow::Borrowed(bytes.as_ref()),
        }
    }
}

impl<'a> From<&'a [u8]> for File<'a> {
    fn from(bytes: &'a [u8]) -> File<'a> {
        File::of(bytes)
    }
}

impl<'a, const N: usize> From<&'a [u8; N]> for File<'a> {
    fn from(bytes: &'a [u8; N]) -> File<'a> {
        File::of(bytes)
    }
}

impl<'a> From<&'a Vec<u8>> for File<'a> {
    fn from(bytes: &'a Vec<u8>) -> File<'a> {
        File::of(bytes)
    }
}

impl<'a> From<&'a Box<[u8]>> for File<'a> {
    fn from(bytes: &'a Box<[u8]>) -> File<'a> {
        File::of(bytes)
    }
}

impl<'a> From<&'a Cow<'_, [u8]>> for File<'a> {
    fn from(bytes: &'a Cow<'_, [u8]>) -> File<'a> {
        File::of(bytes)
    }
}

impl From<Vec<u8>> for File<'_> {
    fn from(bytes: Vec<u8>) -> Self {
        File {
            name: None,
            bytes: Cow::Owned(bytes),
        }
    }
}

impl<'a, N: Into<Cow<'a, str>>, F: Into<File<'a>>> From<(N, F)> for File<'a> {
    fn from((name, file): (N, F)) -> File<'a> {
        File {
            name: Some(name.into()),
            ..file.into()
        }
    }
}

impl<'a, N: AsRef<str>, B: AsRef<[u8]>> From<&'a (N, B)> for File<'a> {
    fn from((name, bytes): &'a (N, B)) -> File<'a> {
        File {
            name: Some(Cow::Borrowed(name.as_ref())),
            ..File::of(bytes)
        }
    }
}
