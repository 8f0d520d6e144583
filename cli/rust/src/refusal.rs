use core::ffi::CStr;
use core::fmt;

/// Why a call was refused. The tests go in the order in which they stand here,
/// and within a number in the order of the inputs; the first that fails is told.
/// [`Blank`](Refusal::Blank) stands here for a message received; for one about to
/// be sent it comes last. Reading settings tests [`Room`](Refusal::Room) last.
///
/// A later version may have more of them, so that a `match` has a case for the rest:
///
/// ```compile_fail,E0004
/// # use wimmostry::Refusal;
/// # fn all(refusal: Refusal) -> bool {
/// match refusal {
///     Refusal::NoStudio | Refusal::OutOfStage | Refusal::OutOfTurn | Refusal::NoScheme => true,
///     Refusal::NoRule | Refusal::Length | Refusal::Room | Refusal::NotAscending(_) => true,
///     Refusal::PublicOver(_) | Refusal::MessageOver(_) | Refusal::Blank => true,
///     Refusal::SecretBeyond(_) | Refusal::RanOut(_) | Refusal::NewerFormat(_) => true,
///     Refusal::Misfit | Refusal::Unknown { .. } => true,
/// }
/// # }
/// ```
#[derive(Clone, Copy, Debug, PartialEq, Eq, Hash)]
#[non_exhaustive]
pub enum Refusal {
    /// 16: the studio's number is over 7.
    NoStudio,
    /// 10: the session's stage does not allow this call with this scheme.
    OutOfStage,
    /// 11: by rows, a part or an end without its begin, a part that runs past its
    /// row or past the last, or an end before all rows have come.
    OutOfTurn,
    /// 1: the scheme is not 0 to 5; by rows, not 2 to 5.
    NoScheme,
    /// 12: the rule is not 14 or 16.
    NoRule,
    /// 2: an input's length is not the fixed one (Expand and the hashes: over
    /// 65,536; a label: over 16).
    Length,
    /// 3: an output is shorter than the answer.
    Room,
    /// 18: the table of Noise is not strictly ascending; the first entry that is
    /// not above its forerunner, 1 to 50.
    NotAscending(usize),
    /// 4: a public number is q or more; the index of the first.
    PublicOver(usize),
    /// 5: a number of the message is q or more; the index of the first.
    MessageOver(usize),
    /// 17: the packed part of a message, received or about to be sent, is all
    /// zero bytes; seed and hints don't count.
    Blank,
    /// 6: a secret or noise value lies beyond the largest noise; the index of
    /// the first.
    SecretBeyond(usize),
    /// 7: the stream of Expand or Grow ran out; how many numbers it held.
    RanOut(usize),
    /// 15: the text of settings is in a newer format than the reader's; that
    /// format's number.
    NewerFormat(u64),
    /// 8: the text is no settings, or a byte of the label is not allowed.
    Misfit,
    /// Any other number: a refusal of a newer archive.
    Unknown {
        /// The number.
        number: u32,
        /// The place.
        place: usize,
    },
}

impl Refusal {
    /// The number, 1 to 8, 10 to 12 or 15 to 18, but for one of a newer archive.
    #[must_use]
    pub const fn number(self) -> u32 {
        match self {
            Refusal::NoStudio => 16,
            Refusal::OutOfStage => 10,
            Refusal::OutOfTurn => 11,
            Refusal::NoScheme => 1,
            Refusal::NoRule => 12,
            Refusal::Length => 2,
            Refusal::Room => 3,
            Refusal::NotAscending(_) => 18,
            Refusal::PublicOver(_) => 4,
            Refusal::MessageOver(_) => 5,
            Refusal::Blank => 17,
            Refusal::SecretBeyond(_) => 6,
            Refusal::RanOut(_) => 7,
            Refusal::NewerFormat(_) => 15,
            Refusal::Misfit => 8,
            Refusal::Unknown { number, .. } => number,
        }
    }

    /// The place: the index of the first bad entry in its input or its table, or
    /// how many numbers a stream held; 0 where there is none.
    #[must_use]
    pub fn place(self) -> usize {
        match self {
            Refusal::NoStudio
            | Refusal::OutOfStage
            | Refusal::OutOfTurn
            | Refusal::NoScheme
            | Refusal::NoRule
            | Refusal::Length
            | Refusal::Room
            | Refusal::Blank
            | Refusal::NewerFormat(_)
            | Refusal::Misfit => 0,
            Refusal::NotAscending(k)
            | Refusal::PublicOver(k)
            | Refusal::MessageOver(k)
            | Refusal::SecretBeyond(k)
            | Refusal::RanOut(k)
            | Refusal::Unknown { place: k, .. } => k,
        }
    }

    /// What it says, without the place: the header's sentence.
    #[must_use]
    pub fn text(self) -> &'static str {
        // SAFETY: any number is taken, and a constant text comes back that ends
        // with a zero. It has plain letters alone.
        let text = unsafe { CStr::from_ptr(crate::raw::ffi::wim_refusal_text(self.number())) };
        text.to_str().unwrap_or_default()
    }

    /// The refusal of a number other than 0. 15 carries the format, which is put in
    /// where it is known.
    pub(crate) fn told(number: u32, place: u64) -> Refusal {
        let place = crate::raw::count(place);
        match number {
            16 => Refusal::NoStudio,
            10 => Refusal::OutOfStage,
            11 => Refusal::OutOfTurn,
            1 => Refusal::NoScheme,
            12 => Refusal::NoRule,
            2 => Refusal::Length,
            3 => Refusal::Room,
            18 => Refusal::NotAscending(place),
            4 => Refusal::PublicOver(place),
            5 => Refusal::MessageOver(place),
            17 => Refusal::Blank,
            6 => Refusal::SecretBeyond(place),
            7 => Refusal::RanOut(place),
            15 => Refusal::NewerFormat(0),
            8 => Refusal::Misfit,
            number => Refusal::Unknown { number, place },
        }
    }
}

impl fmt::Display for Refusal {
    fn fmt(&self, f: &mut fmt::Formatter) -> fmt::Result {
        write!(f, "refusal {}: {}", self.number(), self.text())?;
        match self {
            Refusal::NoStudio
            | Refusal::OutOfStage
            | Refusal::OutOfTurn
            | Refusal::NoScheme
            | Refusal::NoRule
            | Refusal::Length
            | Refusal::Room
            | Refusal::Blank
            | Refusal::Misfit => Ok(()),
            Refusal::NotAscending(k)
            | Refusal::PublicOver(k)
            | Refusal::MessageOver(k)
            | Refusal::SecretBeyond(k) => {
                write!(f, ", the first at {k}")
            }
            Refusal::RanOut(k) => write!(f, ", it held {k}"),
            Refusal::NewerFormat(n) => write!(f, ", format {n}"),
            Refusal::Unknown { place, .. } => write!(f, ", place {place}"),
        }
    }
}

impl core::error::Error for Refusal {}

#[cfg(test)]
mod tests {
    use super::Refusal;

    /// Every number is some refusal's, and comes back; those of no archive so far too.
    #[test]
    fn of_every_number() {
        for number in (1..100).chain([u32::MAX]) {
            let refusal = Refusal::told(number, 7);
            assert_eq!(refusal.number(), number);
            let unknown = refusal == Refusal::Unknown { number, place: 7 };
            assert_eq!(unknown, refusal.text() == "unknown refusal", "{number}");
        }
    }
}
