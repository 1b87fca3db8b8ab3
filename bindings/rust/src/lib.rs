//! The Linker of UCSD Pascal II.0 for Pascal units, from memory to memory, over `libpslink.a`.
//!
//! A host is a whole code file, and so is each library: a [`File`], which is made from bytes, or from
//! a name and bytes.
//!
//! ```no_run
//! fn main() -> Result<(), Box<dyn std::error::Error>> {
//!     let host = std::fs::read("host.code")?;
//!     let library = std::fs::read("library.code")?;
//!     std::fs::write("linked.code", pslink::link(&host, [(&library).into()])?)?;
//!     Ok(())
//! }
//! ```

mod file;
mod file_type;
mod finding;
mod name;
mod raw;
mod reason;

pub use file::File;
pub use file_type::{FileType, Order};
pub use finding::{Finding, Weight};
pub use name::Name;
pub use reason::Reason;

use raw::Answer;
use std::ffi::{c_void, CStr, CString};
use std::fmt;

/// The first release of pslink whose archive this crate calls, as a number: 300 is 0.3.0.
pub const RELEASE_NUMBER: u32 = 300;

/// The last one: an archive does not say its interface, and a release with another second number than
/// that of this crate may have another interface.
const LAST_RELEASE_NUMBER: u32 = 499;

/// How many bytes a linked file has at most.
pub const LINKED_MAX: usize = 524_800;

/// How many bytes the line of a fault has at most, its closing 0 counted.
const FAULT_TEXT_MAX: usize = 160;

/// Room for a text, at first.
const TEXT_GUESS: usize = 4096;

const DONE: u32 = 0;
const REFUSED: u32 = 1;
const MISUSE: u32 = 2;
const NO_MEMORY: u32 = 4;
const TOO_SMALL: u32 = 5;

const NAME: u32 = 0;
const MEANING: u32 = 1;
const REMEDY: u32 = 2;

/// The first fault of the files.
///
/// Its text is that which `pslink` prints, as `refused 13 MissingUnit file 0 slot 7`.
#[derive(Clone, Debug, PartialEq, Eq)]
#[non_exhaustive]
pub struct Fault {
    /// Why the files are refused.
    pub reason: Reason,
    /// The kind word of the library's entry, of [`Reason::NotAUnit`].
    pub kind: Option<u16>,
    /// The file at fault: 0 is the host, k the k-th library, from 1.
    pub file: usize,
    /// What texts call that file.
    pub path: String,
    /// The slot of the host's segment dictionary, 0 to 15.
    pub slot: Option<u8>,
    /// The index of the record in its segment's link information, from 0.
    pub record: Option<usize>,
    /// The index of the reference in its record, from 0.
    pub reference: Option<usize>,
    /// The name of the unit, the segment, the symbol or the variable that is at fault; after
    /// [`Reason::MissingUnit`] that of the unit to look for.
    pub about: Option<Name>,
    text: String,
}

impl fmt::Display for Fault {
    fn fmt(&self, f: &mut fmt::Formatter<'_>) -> fmt::Result {
        f.write_str(&self.text)
    }
}

impl std::error::Error for Fault {}

/// Why there is no result.
#[derive(Clone, Debug, PartialEq, Eq)]
#[non_exhaustive]
pub enum Error {
    /// The files are refused.
    Refused(Fault),
    /// Memory was refused.
    Memory,
    /// The archive is of this release, which is earlier than [`RELEASE_NUMBER`], or so late that it may
    /// have another interface.
    Release(u32),
    /// The archive answered what that release does not.
    Unknown(u32),
    /// There is no such text. An archive of this release has each that [`Text`] names, in each form.
    NoText,
}

impl fmt::Display for Error {
    fn fmt(&self, f: &mut fmt::Formatter<'_>) -> fmt::Result {
        match self {
            Error::Refused(fault) => fault.fmt(f),
            Error::Memory => f.write_str("out of memory"),
            Error::Release(found) => {
                write!(f, "libpslink.a is of release {found}, and not of one from {RELEASE_NUMBER} to {LAST_RELEASE_NUMBER}")
            }
            Error::Unknown(status) => {
                write!(
                    f,
                    "libpslink.a answered {status}, which its release does not"
                )
            }
            Error::NoText => f.write_str("there is no such text"),
        }
    }
}

impl std::error::Error for Error {}

impl From<Fault> for Error {
    fn from(fault: Fault) -> Error {
        Error::Refused(fault)
    }
}

/// What a linked file has.
#[derive(Clone, Copy, Debug, PartialEq, Eq)]
#[non_exhaustive]
pub struct Summary {
    /// How many segments it has, at most 16.
    pub segments: usize,
    /// How many words all private variables take, at most 32767.
    pub private_words: u32,
    /// How many blocks of 512 bytes it has, at most 1025.
    pub blocks: usize,
}

impl Summary {
    fn of(answer: &Answer) -> Summary {
        Summary {
            segments: answer.segments as usize,
            private_words: answer.private_words,
            blocks: answer.blocks as usize,
        }
    }
}

impl Fault {
    /// The number of the fault, that of a [`Reason`].
    #[must_use]
    pub fn number(&self) -> u8 {
        self.reason.number()
    }
}

/// The line of the fault that an answer has.
fn line_of(answer: &Answer) -> String {
    let mut line = [0u8; FAULT_TEXT_MAX];
    // SAFETY: the pointer and the length are those of one array, and `answer` is borrowed.
    let size = unsafe { raw::pslink_fault_text(answer, line.as_mut_ptr().cast(), line.len()) };
    let line = line.get(..size.saturating_sub(1)).unwrap_or_default();
    String::from_utf8_lossy(line).into_owned()
}

/// What a call answers to which so many bytes of room are given: its status, the room, and the answer.
fn in_room(
    size: usize,
    call: impl Fn(&mut [u8], &mut Answer) -> u32,
) -> Result<(u32, Vec<u8>, Answer), Error> {
    let mut room = Vec::new();
    room.try_reserve_exact(size).map_err(|_| Error::Memory)?;
    room.resize(size, 0);
    let mut answer = Answer::default();
    let status = call(&mut room, &mut answer);
    Ok((status, room, answer))
}

/// A host and its libraries, as a call takes them.
struct Files<'a> {
    files: Vec<File<'a>>,
    names: Vec<Option<CString>>,
}

impl<'a> Files<'a> {
    fn new(host: impl Into<File<'a>>, libs: impl IntoIterator<Item = File<'a>>) -> Files<'a> {
        let files: Vec<File> = std::iter::once(host.into()).chain(libs).collect();
        // A name of C ends with the first null character: there is none left.
        let closed = |name: &str| CString::new(name.replace('\0', "\u{FFFD}")).ok();
        let names = files
            .iter()
            .map(|file| file.name.as_deref().and_then(closed))
            .collect();
        Files { files, names }
    }

    fn length(&self) -> usize {
        self.files
            .iter()
            .fold(0, |sum, file| sum.saturating_add(file.bytes.len()))
    }

    /// What texts call a file.
    fn path(&self, number: usize) -> String {
        let name = self.files.get(number).and_then(|file| file.name.as_deref());
        name.map_or_else(|| format!("file {number}"), str::to_owned)
    }

    /// The fault that an answer has; `None` where its number is none of this release.
    fn fault(&self, answer: &Answer) -> Option<Fault> {
        let file = usize::try_from(answer.file).ok()?;
        let name: [u8; 8] = answer.about[..8].try_into().ok()?;
        Some(Fault {
            reason: Reason::of_number(u8::try_from(answer.fault).ok()?)?,
            kind: u16::try_from(answer.kind).ok(),
            file,
            path: self.path(file),
            slot: u8::try_from(answer.slot).ok(),
            record: usize::try_from(answer.record).ok(),
            reference: usize::try_from(answer.reference).ok(),
            about: (name != [0; 8]).then_some(Name(name)),
            text: line_of(answer),
        })
    }

    /// What a call puts in a room of so many bytes, or of as many as it then asks for: it asks once.
    fn made(
        &self,
        size: usize,
        call: impl Fn(&[raw::File], &mut [u8], &mut Answer) -> u32,
    ) -> Result<(Vec<u8>, Answer), Error> {
        let release = release_number();
        if !(RELEASE_NUMBER..=LAST_RELEASE_NUMBER).contains(&release) {
            return Err(Error::Release(release));
        }
        let files: Vec<raw::File> = std::iter::zip(&self.files, &self.names)
            .map(|(file, name)| raw::File {
                name: name.as_ref().map_or(std::ptr::null(), |name| name.as_ptr()),
                bytes: file.bytes.as_ptr().cast(),
                length: file.bytes.len(),
            })
            .collect();
        let call = |room: &mut [u8], answer: &mut Answer| call(&files, room, answer);
        let (mut status, mut room, mut answer) = in_room(size, call)?;
        if status == TOO_SMALL {
            (status, room, answer) = in_room(answer.size, call)?;
        }
        match status {
            DONE => {
                room.truncate(answer.size);
                room.shrink_to_fit();
                Ok((room, answer))
            }
            REFUSED => {
                let fault = self.fault(&answer).ok_or(Error::Unknown(REFUSED))?;
                Err(Error::Refused(fault))
            }
            NO_MEMORY => Err(Error::Memory),
            MISUSE => Err(Error::NoText),
            status => Err(Error::Unknown(status)),
        }
    }

    fn linked(&self) -> Result<(Vec<u8>, Answer), Error> {
        // A linked file is longer than all that is linked only where segments share their code.
        self.made(LINKED_MAX.min(self.length()), |files, room, answer| {
            // SAFETY: each pointer and its length are those of one slice; the names end with a 0;
            // `room` and `answer` are borrowed alone.
            unsafe {
                let out = room.as_mut_ptr().cast::<c_void>();
                raw::pslink_link(files.as_ptr(), files.len(), out, room.len(), answer)
            }
        })
    }

    fn bytes_of(&self, what: u32) -> Result<(Vec<u8>, Answer), Error> {
        self.made(TEXT_GUESS, |files, room, answer| {
            // SAFETY: as in `linked`.
            unsafe {
                let out = room.as_mut_ptr().cast::<c_void>();
                raw::pslink_text(what, files.as_ptr(), files.len(), out, room.len(), answer)
            }
        })
    }

    fn text(&self, what: Text, form: Form) -> Result<(String, Answer), Error> {
        let (text, answer) = self.bytes_of(what as u32 | form as u32)?;
        Ok((String::from_utf8_lossy(&text).into_owned(), answer))
    }

    fn units(&self, which: u32) -> Result<Vec<Name>, Error> {
        let (names, _) = self.bytes_of(which)?;
        let names = names.chunks_exact(8);
        Ok(names
            .filter_map(|name| Some(Name(name.try_into().ok()?)))
            .collect())
    }
}

/// The linked file of a host and of the units that it uses, which the libraries have. Of the
/// libraries that have a unit, the first is used; `[]` stands for none.
///
/// # Errors
/// [`Error::Refused`] with the first fault, where the files do not link; [`Error::Memory`] where
/// memory was refused; [`Error::Release`] where the archive is another.
pub fn link<'a>(
    host: impl Into<File<'a>>,
    libs: impl IntoIterator<Item = File<'a>>,
) -> Result<Vec<u8>, Error> {
    Ok(link_with_summary(host, libs)?.0)
}

/// The linked file as of [`link`], and what it has.
///
/// # Errors
/// Those of [`link`].
pub fn link_with_summary<'a>(
    host: impl Into<File<'a>>,
    libs: impl IntoIterator<Item = File<'a>>,
) -> Result<(Vec<u8>, Summary), Error> {
    let (linked, answer) = Files::new(host, libs).linked()?;
    Ok((linked, Summary::of(&answer)))
}

/// The map of that link, as text: what it puts where.
///
/// # Errors
/// Those of [`link`].
pub fn map<'a>(
    host: impl Into<File<'a>>,
    libs: impl IntoIterator<Item = File<'a>>,
) -> Result<String, Error> {
    text(Text::Map, Form::Lines, host, libs)
}

/// What a check says of files.
#[derive(Clone, Debug, PartialEq, Eq)]
#[non_exhaustive]
pub struct Report {
    /// The report, for a person.
    pub text: String,
    /// What the linked file has, or why the files are refused.
    pub verdict: Result<Summary, Fault>,
    /// What else is found, one by one, in the order of its lines.
    pub findings: Vec<Finding>,
}

impl Report {
    /// Whether the files are linked.
    #[must_use]
    pub fn ok(&self) -> bool {
        self.verdict.is_ok()
    }

    /// The findings that are warnings: with one, the program's `check --strict` ends with 1.
    pub fn warnings(&self) -> impl Iterator<Item = &Finding> {
        self.of_weight(Weight::Warning)
    }

    /// The findings that are notes.
    pub fn notes(&self) -> impl Iterator<Item = &Finding> {
        self.of_weight(Weight::Note)
    }

    fn of_weight(&self, weight: Weight) -> impl Iterator<Item = &Finding> {
        self.findings
            .iter()
            .filter(move |finding| finding.weight == weight)
    }
}

/// The report on a host and its libraries: whether they are linked, and what is wrong with them.
///
/// # Errors
/// Those of [`link`], but [`Error::Refused`]: a report is of files that are refused too.
pub fn check<'a>(
    host: impl Into<File<'a>>,
    libs: impl IntoIterator<Item = File<'a>>,
) -> Result<Report, Error> {
    let files = Files::new(host, libs);
    let (text, answer) = files.text(Text::Check, Form::Lines)?;
    let (document, _) = files.text(Text::Findings, Form::Json)?;
    let verdict = match answer.fault {
        0 => Ok(Summary::of(&answer)),
        _ => Err(files.fault(&answer).ok_or(Error::Unknown(REFUSED))?),
    };
    Ok(Report {
        text,
        verdict,
        findings: finding::findings_in(&document).ok_or(Error::Unknown(DONE))?,
    })
}

/// What [`text`] makes: what the program prints by its command of this name.
#[derive(Clone, Copy, Debug, PartialEq, Eq, Hash)]
#[non_exhaustive]
#[repr(u32)]
pub enum Text {
    // made by man/make_constants.py from crates/ps_c_texts/src/kinds.rt: the texts
    /// The map of the link: what it puts where.
    ///
    /// The command `map` prints it.
    Map = 0,
    /// That map, and then each place at which the link stores bytes.
    ///
    /// The command `map --references` prints it.
    References = 1,
    /// What the first file has: its slots, and its link information.
    ///
    /// The command `show` prints it.
    Show = 2,
    /// The report on the files, for a person: where each segment comes from, whether they are
    /// linked, what a fault means in these files and what to do about it, and what else is
    /// found.
    ///
    /// The command `check` prints it.
    Check = 3,
    /// What each file has.
    ///
    /// The command `list` prints it.
    List = 4,
    /// That list, and after each file what is wrong with its units by themselves.
    ///
    /// The command `check --unit` prints it.
    Units = 5,
    /// What the report finds, one by one: lines of it, each of which begins with `warning: `,
    /// `note: ` or `harmless: `; nothing where it finds nothing.
    Findings = 6,
    // end
}

/// In which form [`text`] has it.
#[derive(Clone, Copy, Debug, PartialEq, Eq, Hash)]
#[non_exhaustive]
#[repr(u32)]
pub enum Form {
    /// Lines, for a person.
    Lines = 0,
    /// One JSON document, which `docs/JSON.md` describes.
    Json = 256,
}

/// What the program prints of these files. Of a list and of its units all files are equal; of a show
/// there is one, `host`.
///
/// # Errors
/// Those of [`link`], where [`Error::Refused`] is of a map, its references and a show alone.
pub fn text<'a>(
    what: Text,
    form: Form,
    host: impl Into<File<'a>>,
    libs: impl IntoIterator<Item = File<'a>>,
) -> Result<String, Error> {
    Ok(Files::new(host, libs).text(what, form)?.0)
}

// made by man/make_constants.py from crates/ps_c_texts/src/kinds.rt: the names of units
const WANTED: u32 = 7;
const HAD: u32 = 8;
const TYPE: u32 = 9;

/// The names of the units that a link takes from libraries, or would take if a library had
/// them, each once.
///
/// First come those that the slots of the host want, by slot. Then come those that a record
/// requests, of the host or of a unit that was found, and no slot of the host has: in the
/// order of their requests, ten of these at most. They are told as far as a link reads: a
/// segment that cannot be read requests none, and no unit is looked for after one that is
/// missing. There is none where the host is linked already, or where its list says that it
/// is something else than a code file.
///
/// # Errors
/// Those of [`show`].
pub fn units_wanted<'a>(
    host: impl Into<File<'a>>,
    libs: impl IntoIterator<Item = File<'a>>,
) -> Result<Vec<Name>, Error> {
    Files::new(host, libs).units(WANTED)
}

/// The names of the units whose code the file has, by slot.
///
/// There is none where the file is linked already, or where its list says that it is
/// something else than a code file.
///
/// # Errors
/// Those of [`show`].
pub fn units_had<'a>(file: impl Into<File<'a>>) -> Result<Vec<Name>, Error> {
    Files::new(file, []).units(HAD)
}
// end

/// What a code file has, of any contents, as text.
///
/// # Errors
/// [`Error::Refused`] with [`Reason::ShortFile`] or [`Reason::NoOrder`]; else as of [`link`].
pub fn show<'a>(file: impl Into<File<'a>>) -> Result<String, Error> {
    text(Text::Show, Form::Lines, file, [])
}

/// What a file of any contents is for, and its byte order.
///
/// # Errors
/// Those of [`link`], but [`Error::Refused`]; and [`Error::NoText`] over an archive of release 0.4.0 or
/// of an earlier one.
pub fn file_type<'a>(file: impl Into<File<'a>>) -> Result<FileType, Error> {
    let (line, _) = Files::new(file, []).bytes_of(TYPE)?;
    FileType::of_line(&line).ok_or(Error::Unknown(DONE))
}

/// The release of the archive as a number to compare, as 300 for 0.3.0: 10000 times its first part,
/// 100 times its second, and its third.
#[must_use]
pub fn release_number() -> u32 {
    // SAFETY: it reads nothing.
    unsafe { raw::pslink_release_number() }
}

/// What the archive has of the fault of this number; empty where there is none.
fn said(number: u8, part: u32) -> &'static str {
    // SAFETY: what is not null is a text with a closing 0, which is never freed.
    let said = unsafe {
        let text = raw::pslink_fault(number.into(), part);
        (!text.is_null()).then(|| CStr::from_ptr(text))
    };
    said.and_then(|text| text.to_str().ok()).unwrap_or_default()
}

/// What the library calls the fault of this number, as `MissingUnit`; empty where there is none.
#[must_use]
pub fn fault_name(number: u8) -> &'static str {
    said(number, NAME)
}

/// What the fault of this number means, in a sentence; empty where there is none.
#[must_use]
pub fn fault_meaning(number: u8) -> &'static str {
    said(number, MEANING)
}

/// What to do about it, in sentences in which `the file` is the one at fault.
#[must_use]
pub fn fault_remedy(number: u8) -> &'static str {
    said(number, REMEDY)
}
