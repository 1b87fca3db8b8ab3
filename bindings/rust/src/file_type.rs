//! What files are for.

use std::fmt;

/// The byte order of a code file.
#[derive(Clone, Copy, Debug, PartialEq, Eq, Hash)]
pub enum Order {
    Little,
    Big,
}

/// What a file is for, and its byte order. Its text is the words of the list, as `library little`, or
/// `other`.
#[derive(Clone, Copy, Debug, PartialEq, Eq, Hash)]
#[non_exhaustive]
pub enum FileType {
    /// A code file that has a host program.
    Host(Order),
    /// A code file that has units, and no linked segment.
    Library(Order),
    /// A code file whose segments are all linked.
    Linked(Order),
    /// A code file that has linked segments and others, and no host program.
    Mixed(Order),
    /// A file that is no code file.
    Other,
}

impl Order {
    const ALL: [Order; 2] = [Order::Little, Order::Big];

    fn word(self) -> &'static str {
        match self {
            Order::Little => "little",
            Order::Big => "big",
        }
    }
}

impl fmt::Display for Order {
    fn fmt(&self, f: &mut fmt::Formatter<'_>) -> fmt::Result {
        f.write_str(self.word())
    }
}

impl FileType {
    /// The types that have an order.
    const ORDERED: [fn(Order) -> FileType; 4] = [
        FileType::Host,
        FileType::Library,
        FileType::Linked,
        FileType::Mixed,
    ];

    /// The type that a line of the archive names, if there is one.
    pub(crate) fn of_line(line: &[u8]) -> Option<FileType> {
        let each = FileType::ORDERED.iter();
        let ordered = each.flat_map(|of_order| Order::ALL.map(of_order));
        ordered
            .chain([FileType::Other])
            .find(|one| format!("{one}\n").as_bytes() == line)
    }

    /// The byte order of a code file.
    #[must_use]
    pub fn order(self) -> Option<Order> {
        match self {
            FileType::Host(order)
            | FileType::Library(order)
            | FileType::Linked(order)
            | FileType::Mixed(order) => Some(order),
            FileType::Other => None,
        }
    }

    /// Whether a link of this host can take units from a file of this type: a library, or a file that has
    /// linked segments too, of the same byte order.
    #[must_use]
    pub fn is_library_for(self, host: FileType) -> bool {
        let is_library = matches!(self, FileType::Library(_) | FileType::Mixed(_));
        is_library && self.order() == host.order()
    }
}

impl fmt::Display for FileType {
    fn fmt(&self, f: &mut fmt::Formatter<'_>) -> fmt::Result {
        match self {
            FileType::Host(order) => write!(f, "host {order}"),
            FileType::Library(order) => write!(f, "library {order}"),
            FileType::Linked(order) => write!(f, "linked {order}"),
            FileType::Mixed(order) => write!(f, "mixed {order}"),
            FileType::Other => f.write_str("other"),
        }
    }
}
