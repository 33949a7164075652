//! Why the library refuses a file, a PO text or a name.

use std::error::Error;
use std::fmt;
use std::io;

use crate::sys;

/// Makes the enum and the two functions between its variants and the numbers of `kobdzila.h`.
macro_rules! faults {
    ($($(#[doc = $text:literal])+ $name:ident = $number:literal,)+) => {
        /// The reason of a refusal: the constants of `enum kob_fault` in `kobdzila.h`.
        ///
        /// If several reasons apply, the first one of its group (`Mo..`, `Po..`) is reported. [`Display`](fmt::Display)
        /// writes the library's description.
        ///
        /// ```
        /// use kobdzila::Fault;
        ///
        /// assert_eq!(Fault::PoDuplicate.to_string(), "duplicate message");
        /// assert_eq!(Fault::PoDuplicate.number(), 109);
        /// ```
        #[derive(Clone, Copy, Debug, PartialEq, Eq, Hash)]
        #[non_exhaustive]
        pub enum Fault {
            $($(#[doc = $text])+ $name,)+
            /// A reason that this version of the crate doesn't know, by its number. Only a newer library reports one.
            Unknown(u32),
        }

        impl Fault {
            /// Returns the number that the reason has in `kobdzila.h`.
            ///
            /// ```
            /// assert_eq!(kobdzila::Fault::MoMagic.number(), 3);
            /// ```
            pub fn number(self) -> u32 {
                match self {
                    $(Fault::$name => $number,)+
                    Fault::Unknown(number) => number,
                }
            }

            fn of_number(number: u32) -> Fault {
                match number {
                    $($number => Fault::$name,)+
                    _ => Fault::Unknown(number),
                }
            }
        }
    };
}

faults! {
    /// The MO file has more than 268,435,456 bytes.
    MoTooLarge = 1,
    /// The MO file has fewer than 28 bytes.
    MoShort = 2,
    /// The file doesn't begin with the magic number of MO files, in either byte order.
    MoMagic = 3,
    /// The revision of the MO file isn't 0.0, 0.1, 1.0 or 1.1.
    MoRevision = 4,
    /// A table or a string isn't wholly inside the MO file.
    MoBounds = 5,
    /// A string of the MO file isn't terminated by NUL.
    MoNoNul = 6,
    /// A string of the MO file isn't UTF-8, or a key contains byte 4 twice.
    MoBadText = 7,
    /// An entry has several plurals, or several forms and no plural.
    MoForms = 8,
    /// The keys of the MO file aren't in strictly ascending order.
    MoOrder = 9,
    /// The header of the MO file names a charset that isn't decoded.
    MoCharset = 10,
    /// The MO file that [`Catalogue::mo_file`](crate::Catalogue::mo_file) would return is too large.
    MoSwollen = 11,
    /// Memory ran out, which says nothing about the input.
    Memory = 12,
    /// The header of an MO file of minor revision 1 isn't 48 bytes long, or a table of system-dependent strings isn't
    /// inside the file.
    MoDependentTables = 13,
    /// A segment of system-dependent strings isn't wholly inside the MO file, or isn't terminated by NUL.
    MoDependentSegment = 14,
    /// The descriptor of a system-dependent string isn't wholly inside the MO file.
    MoDependentDescriptor = 15,
    /// A descriptor names a segment that the MO file doesn't have.
    MoDependentSegmentNumber = 16,
    /// A piece of a system-dependent string isn't wholly inside the MO file.
    MoDependentText = 17,
    /// The last piece of a system-dependent string isn't terminated by NUL.
    MoDependentOpenText = 18,
    /// The system-dependent strings of the MO file together have more than 268,435,456 bytes.
    MoDependentSwollen = 19,
    /// A byte of the MO file has no character in the charset that the header names.
    MoNoCharacter = 20,
    /// The PO text has more than 67,108,864 bytes.
    PoTooLarge = 101,
    /// The PO text isn't UTF-8.
    PoNotUtf8 = 102,
    /// A string has a backslash that begins no escape.
    PoBadEscape = 103,
    /// A string isn't closed on its line.
    PoOpenString = 104,
    /// A word that isn't part of the PO format.
    PoBadWord = 105,
    /// A string contains NUL or isn't UTF-8, or a context or a msgid contains byte 4.
    PoBadText = 106,
    /// The parts of an entry are in the wrong order, or one is missing.
    PoBadOrder = 107,
    /// The forms of an entry aren't numbered 0, 1, 2 and so on.
    PoBadIndex = 108,
    /// A message occurs twice.
    PoDuplicate = 109,
    /// The header of the PO text names a charset that isn't decoded.
    PoCharset = 110,
    /// A format has directives that depend on the system, such as `%<PRId64>`. Only C's `KOB_STRICT` refuses them.
    PoSystemDependent = 111,
    /// There is a plural message and no plural rule.
    PoNoRule = 112,
    /// The plural rule of the header is malformed.
    PoBadRule = 113,
    /// A plural message has more or fewer forms than the header says.
    PoFormCount = 114,
    /// The plural rule has no value for a number, or one that isn't the number of a form.
    PoPluralRange = 115,
    /// The arguments of a translation's format differ from those of its message.
    PoFormatMismatch = 116,
    /// Only one of a message and its translation begins, or ends, with a newline.
    PoNewlineMismatch = 117,
    /// A byte has no character in the charset that the header names.
    PoNoCharacter = 119,
    /// The MO file with system-dependent strings doesn't read back as the messages: never seen; a defect of libkobdzila.
    PoNotReadBack = 120,
    /// The file couldn't be read: [`Error::source`] says why.
    Unreadable = 201,
    /// A text domain or a locale isn't 1 to 64 letters, digits and `_ - . @ +`.
    BadName = 202,
    /// The store has accepted 2^58 - 1 loads, and accepts no more.
    VersionsSpent = 204,
}

impl fmt::Display for Fault {
    fn fmt(&self, f: &mut fmt::Formatter<'_>) -> fmt::Result {
        f.write_str(sys::fault_text(self.number()))
    }
}

/// Why there is no catalogue or set, or why a [`Store`](crate::Store) refused a load: the error of all calls that open,
/// make or load something.
///
/// It displays as the library's description of the reason, without the line and without the name of the file, which the
/// library may not know. `{file}:{line}: {refused}` is a line that an editor can jump to.
///
/// ```
/// use kobdzila::{Catalogue, Fault, Options};
///
/// let twice = "msgid \"a\"\nmsgstr \"x\"\nmsgid \"a\"\nmsgstr \"y\"\n";
/// let refused = Catalogue::from_po(twice.as_bytes(), Options::new()).unwrap_err();
/// assert_eq!(refused.fault(), Fault::PoDuplicate);
/// assert_eq!(refused.line(), Some(3));
/// assert_eq!(refused.to_string(), "duplicate message");
/// ```
#[derive(Debug)]
pub struct Refused {
    fault: Fault,
    line: Option<u32>,
    file: Option<io::Error>,
}

impl Refused {
    /// Returns the reason.
    ///
    /// ```
    /// use kobdzila::{Catalogue, Fault};
    ///
    /// assert_eq!(Catalogue::from_mo(b"too short").unwrap_err().fault(), Fault::MoShort);
    /// ```
    pub fn fault(&self) -> Fault {
        self.fault
    }

    /// Returns the line of the PO text, from 1, if the reason has one.
    ///
    /// ```
    /// use kobdzila::{Catalogue, Options};
    ///
    /// let refused = Catalogue::from_po(b"msgid \"a\"\nmsgid \"b\"\n", Options::new()).unwrap_err();
    /// assert_eq!(refused.line(), Some(2));
    /// assert_eq!(Catalogue::from_mo(b"too short").unwrap_err().line(), None);
    /// ```
    pub fn line(&self) -> Option<u32> {
        self.line
    }
}

impl fmt::Display for Refused {
    fn fmt(&self, f: &mut fmt::Formatter<'_>) -> fmt::Result {
        self.fault.fmt(f)
    }
}

impl Error for Refused {
    fn source(&self) -> Option<&(dyn Error + 'static)> {
        self.file.as_ref().map(|it| it as _)
    }
}

impl From<sys::Refusal> for Refused {
    fn from(refusal: sys::Refusal) -> Refused {
        Refused {
            fault: Fault::of_number(refusal.fault),
            line: (refusal.line != 0).then_some(refusal.line),
            file: refusal.file,
        }
    }
}

#[cfg(test)]
mod tests {
    use super::Fault;

    #[test]
    fn each_number_of_a_fault_is_that_fault() {
        let known: Vec<Fault> = (1..300)
            .map(Fault::of_number)
            .filter(|it| !matches!(it, Fault::Unknown(_)))
            .collect();
        assert!(known.len() >= 39);
        for fault in known {
            assert_eq!(Fault::of_number(fault.number()), fault);
            assert_ne!(fault.to_string(), "unknown fault");
        }
    }

    #[test]
    fn a_later_library_may_have_other_numbers() {
        let fault = Fault::of_number(999);
        assert_eq!((fault, fault.number()), (Fault::Unknown(999), 999));
        assert_eq!(fault.to_string(), "unknown fault");
    }
}
