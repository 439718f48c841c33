//! The kinds of unit by their code bytes.

use std::fmt;

use avsplus_sys as sys;

/// The kinds of unit.
#[derive(Debug, Clone, Copy, PartialEq, Eq, Hash)]
pub enum Kind {
    /// Codes 00 to AF.
    Slice,
    /// Code B0.
    SequenceHeader,
    /// Code B1.
    SequenceEnd,
    /// Code B2.
    UserData,
    /// Code B3.
    IPicture,
    /// Code B5.
    Extension,
    /// Code B6.
    PbPicture,
    /// Code B7.
    EditCode,
}

impl Kind {
    /// The kind of a unit by its code byte: none for B4 and for B8 to FF.
    ///
    /// ```
    /// use avsplus::Kind;
    ///
    /// assert_eq!(Kind::of(0xB0), Some(Kind::SequenceHeader));
    /// assert_eq!(Kind::of(0xAF), Some(Kind::Slice));
    /// assert_eq!(Kind::of(0xB4), None);
    /// ```
    pub fn of(code: u8) -> Option<Kind> {
        match code {
            0x00..=0xAF => Some(Kind::Slice),
            0xB0 => Some(Kind::SequenceHeader),
            0xB1 => Some(Kind::SequenceEnd),
            0xB2 => Some(Kind::UserData),
            0xB3 => Some(Kind::IPicture),
            0xB5 => Some(Kind::Extension),
            0xB6 => Some(Kind::PbPicture),
            0xB7 => Some(Kind::EditCode),
            0xB4 | 0xB8..=0xFF => None,
        }
    }

    /// Its number in the C interface.
    pub fn number(self) -> u32 {
        match self {
            Kind::Slice => sys::AVSPLUS_SLICE,
            Kind::SequenceHeader => sys::AVSPLUS_SEQUENCE_HEADER,
            Kind::SequenceEnd => sys::AVSPLUS_SEQUENCE_END,
            Kind::UserData => sys::AVSPLUS_USER_DATA,
            Kind::IPicture => sys::AVSPLUS_I_PICTURE,
            Kind::Extension => sys::AVSPLUS_EXTENSION_UNIT,
            Kind::PbPicture => sys::AVSPLUS_PB_PICTURE,
            Kind::EditCode => sys::AVSPLUS_EDIT_CODE,
        }
    }

    /// Its name, such as "sequence header".
    pub fn name(self) -> &'static str {
        match self {
            Kind::Slice => "slice",
            Kind::SequenceHeader => "sequence header",
            Kind::SequenceEnd => "sequence end",
            Kind::UserData => "user data",
            Kind::IPicture => "I picture",
            Kind::Extension => "extension",
            Kind::PbPicture => "P or B picture",
            Kind::EditCode => "edit code",
        }
    }
}

impl fmt::Display for Kind {
    fn fmt(&self, f: &mut fmt::Formatter<'_>) -> fmt::Result {
        f.pad(self.name())
    }
}

#[cfg(test)]
mod tests {
    use super::*;
    use crate::calls;

    #[test]
    fn kinds_of_all_codes_are_the_librarys() {
        for code in 0..=255 {
            let number = Kind::of(code).map_or(sys::AVSPLUS_NO_KIND, Kind::number);
            assert_eq!(calls::kind(code), Ok(number), "{:02X}", code);
        }
    }
}
