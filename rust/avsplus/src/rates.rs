//! The rates at which contexts learn, and their tables.

use avsplus_sys as sys;

use crate::calls;
use crate::refused::{Reason, Refused};

/// A rate at which a context learns, by its cycno before a bin.
#[derive(Debug, Clone, Copy, PartialEq, Eq, Hash)]
pub enum Rate {
    /// Of cycno 0 and 1.
    Three,
    /// Of cycno 2.
    Four,
    /// Of cycno 3.
    Five,
}

impl Rate {
    /// All of them.
    pub const ALL: [Rate; 3] = [Rate::Three, Rate::Four, Rate::Five];

    /// The rate's w.
    pub fn w(self) -> u32 {
        match self {
            Rate::Three => 3,
            Rate::Four => 4,
            Rate::Five => 5,
        }
    }

    /// The entry of the rate's table: the lg of a context after a bin that was its mps. None for an lg over 1023, where the
    /// table ends. [`decode`](crate::Payload::decode) and [`decode_pair`](crate::Payload::decode_pair) read the same tables.
    ///
    /// ```
    /// use avsplus::Rate;
    ///
    /// assert_eq!(Rate::Three.next_lg(1023)?, Some(865));
    /// assert_eq!(Rate::Five.next_lg(1023)?, Some(985));
    /// assert_eq!(Rate::Five.next_lg(1024)?, None);
    /// # Ok::<(), avsplus::Refused>(())
    /// ```
    pub fn next_lg(self, lg: u32) -> Result<Option<u32>, Refused> {
        entry(calls::next_lg(self.w(), lg)?, lg)
    }
}

/// The entry at an lg as the library gives it, which is no more than the lg.
fn entry(given: u32, lg: u32) -> Result<Option<u32>, Refused> {
    match given {
        sys::AVSPLUS_NO_LG => Ok(None),
        entry if entry <= lg => Ok(Some(entry)),
        _ => Err(Reason::Malformed.into()),
    }
}

#[cfg(test)]
mod tests {
    use super::{entry, Rate};
    use crate::refused::Reason;

    #[test]
    fn an_entry_is_no_more_than_its_lg() {
        assert_eq!(entry(4, 4), Ok(Some(4)));
        assert_eq!(entry(u32::MAX, 4), Ok(None));
        assert_eq!(entry(5, 4), Err(Reason::Malformed.into()));
    }

    #[test]
    fn the_tables_have_1024_entries() {
        for rate in Rate::ALL {
            assert_eq!(rate.next_lg(0), Ok(Some(0)));
            assert_eq!(rate.next_lg(1024), Ok(None));
            assert_eq!(rate.next_lg(u32::MAX), Ok(None));
        }
        assert_eq!(Rate::ALL.map(Rate::w), [3, 4, 5]);
    }
}
