//! The reasons for which files are refused.

use std::fmt;

/// The enum with a variant for each of these, and what its variants have.
macro_rules! reasons {
    ($($(#[$words:meta])* $name:ident = $number:literal,)*) => {
        /// Why files are refused: each reason has a number, 1 to 35, and a name, that of its
        /// variant.
        ///
        /// Its text is its name. `docs/LINKING.md` says of each what to do about it.
        #[derive(Clone, Copy, Debug, PartialEq, Eq, Hash)]
        #[non_exhaustive]
        #[repr(u8)]
        pub enum Reason {
            $($(#[$words])* $name = $number,)*
        }

        impl Reason {
            /// All of them, by their numbers.
            pub const ALL: &'static [Reason] = &[$(Reason::$name,)*];

            /// The reason's name, that of its variant.
            #[must_use]
            pub fn name(self) -> &'static str {
                match self {
                    $(Reason::$name => stringify!($name),)*
                }
            }
        }
    };
}

reasons! {
    // made by man/make_constants.py from crates/ps_words/src/fault.rt
    /// 1: the file has fewer than 512 bytes, so it has no whole segment dictionary.
    ShortFile = 1,
    /// 2: the kind words of the segment dictionary fit neither byte order.
    NoOrder = 2,
    /// 3: a library's byte order is not the host's.
    OrderMismatch = 3,
    /// 4: the host file has no segment of kind HOSTSEG, the program's own.
    NoHost = 4,
    /// 5: the host file has a second segment of kind HOSTSEG.
    TwoHosts = 5,
    /// 6: a unit has the name of an earlier unit of the host file.
    DoubledSegment = 6,
    /// 7: a segment of the host file is a segment procedure, kind SEGPROC.
    SegmentProcedure = 7,
    /// 8: a segment of the host file is a separate segment, kind SEPRTSEG.
    NativeSegment = 8,
    /// 9: a segment of the host file is an intrinsic unit or a data segment, kinds 5 to 7.
    Intrinsic = 9,
    /// 10: a segment of the host file has a kind above 7.
    UnknownKind = 10,
    /// 11: the code has more than 32767 bytes, or that of a segment to be linked fewer than 4 or an
    /// odd number.
    BadLength = 11,
    /// 12: the code's address is block 0, where the segment dictionary is.
    BadAddress = 12,
    /// 13: no library has an entry, with code, of the name of a unit that a slot of the host wants
    /// or a UNITREF record requests, or the record's name is no name.
    MissingUnit = 13,
    /// 14: the library's entry of a wanted unit's name is no unit.
    NotAUnit = 14,
    /// 15: the library has more than one entry, with code, of a wanted unit's name.
    DoubledUnit = 15,
    /// 16: the code is not whole in the file.
    Truncated = 16,
    /// 17: the procedure dictionary or an attribute table does not lie inside the code, or the
    /// host segment has no body for procedure 1.
    BadProcDict = 17,
    /// 18: the attribute table of a procedure says that it is native code.
    NativeProcedure = 18,
    /// 19: the link information ends before its EOFMARK record, or within a record.
    RecordsTruncated = 19,
    /// 20: a link record's type is above 14.
    UnknownRecord = 20,
    /// 21: a link record is of a type or a format that native code alone has.
    NativeRecord = 21,
    /// 22: a link record is of a separate procedure or function.
    SeparateRecord = 22,
    /// 23: a reference record's format is not that of its type.
    BadFormat = 23,
    /// 24: a definition has the name of an earlier one.
    DoubledDefinition = 24,
    /// 25: a private variable has the name of an earlier one of its segment.
    DoubledPrivate = 25,
    /// 26: the next free base offset after a private variable is above 32767.
    NoRoom = 26,
    /// 27: the host segment's data size, grown by the private words, is above 65535 bytes.
    DataTooLarge = 27,
    /// 28: a public reference's name has no definition.
    MissingDefinition = 28,
    /// 29: a public reference's definition is a constant.
    IllKind = 29,
    /// 30: no longer returned: a unit that no slot of the host has is looked up in the libraries.
    MissingUnitRef = 30,
    /// 31: an operand does not lie inside the code.
    OutsideCode = 31,
    /// 32: an operand lies in the procedure dictionary or in an attribute table.
    ReservedPlace = 32,
    /// 33: an operand shares a byte with that of an earlier reference of its segment.
    Overlap = 33,
    /// 34: an operand's displacement plus the value is above 32767.
    OperandTooLarge = 34,
    /// 35: no empty slot from 7 to 15 is left for a unit that a UNITREF record requests.
    NoSlot = 35,
    // end
}

impl Reason {
    /// The reason's number, 1 to 35.
    #[must_use]
    pub fn number(self) -> u8 {
        self as u8
    }

    /// What it means, in a sentence of the library.
    #[must_use]
    pub fn meaning(self) -> &'static str {
        crate::fault_meaning(self.number())
    }

    /// What to do about it, in sentences in which `the file` is the one at fault;
    /// [`check`](crate::check) says more of the files at hand.
    #[must_use]
    pub fn remedy(self) -> &'static str {
        crate::fault_remedy(self.number())
    }

    /// The reason of this number; `None` where none has it.
    #[must_use]
    pub fn of_number(number: u8) -> Option<Reason> {
        Reason::ALL
            .iter()
            .copied()
            .find(|reason| reason.number() == number)
    }
}

impl fmt::Display for Reason {
    fn fmt(&self, f: &mut fmt::Formatter<'_>) -> fmt::Result {
        f.write_str(self.name())
    }
}
