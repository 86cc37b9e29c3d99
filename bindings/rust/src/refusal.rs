//! Refusals: why a call was not answered, and what to mend.

use std::error::Error;
use std::fmt;

/// Why a call was refused. [`Cause::number`] gives the number that stands first here.
#[derive(Clone, Copy, Debug, PartialEq, Eq, Hash, PartialOrd, Ord)]
#[non_exhaustive]
pub enum Cause {
    /// 1: n is not 1 to 26, or two tables differ in it. The place is 0.
    Alphabet,
    /// 2: the list, query or list text is longer than 1,048,576 bytes. The place is 0.
    Bytes,
    /// 3: a byte is no letter, nor, in a list, a line end. The place is its offset.
    Byte,
    /// 4: a letter is beyond n. The place is its offset, in a file that of its number's first byte.
    Letter,
    /// 5: the last word of a list has no line end. The place is the list's length.
    Unended,
    /// 6: the table is too short, or its points are not 1 to 1,048,577. The place is 0.
    Table,
    /// 7: the work buffer is too short. The place is the number of cells needed.
    Work,
    /// 8: the table is not canonical. The place is the lowest faulty cell.
    Canonical,
    /// 9: the output is too short. The place is the length needed.
    Output,
    /// 10: a number in a file is cut, too long or too big. The place is its first byte.
    Number,
    /// 11: the file is of no known kind. The place is 0.
    Kind,
    /// 12: bytes stand behind the end of a file. The place is the first of them.
    After,
    /// A number that this crate does not know: the library is younger than the crate.
    Unknown(u64),
}

impl Cause {
    /// The causes, each at its number less one.
    const NUMBERED: [Cause; 12] = [
        Cause::Alphabet,
        Cause::Bytes,
        Cause::Byte,
        Cause::Letter,
        Cause::Unended,
        Cause::Table,
        Cause::Work,
        Cause::Canonical,
        Cause::Output,
        Cause::Number,
        Cause::Kind,
        Cause::After,
    ];

    /// The cause of a number.
    fn numbered(number: u64) -> Cause {
        match number {
            1..=12 => Cause::NUMBERED[number as usize - 1],
            _ => Cause::Unknown(number),
        }
    }

    /// The number of the cause.
    pub fn number(self) -> u64 {
        match self {
            Cause::Unknown(number) => number,
            known => Cause::NUMBERED.iter().take_while(|&&cause| cause != known).count() as u64 + 1,
        }
    }
}

/// A call that was not answered: why, and where. It prints what to mend.
///
/// ```
/// let refusal = subgroups::Subgroup::fold(2, "ab\nac\n").unwrap_err();
/// assert_eq!(refusal.number(), 4);
/// assert_eq!(refusal.place, 4);
/// assert_eq!(refusal.to_string(), "letter beyond n at byte 4");
/// ```
#[derive(Clone, Copy, PartialEq, Eq, Hash)]
pub struct Refusal {
    /// Why.
    pub cause: Cause,
    /// Where, or how much is needed; [`Cause`] says what it tells.
    pub place: u64,
}

impl Refusal {
    /// The number of the cause.
    pub fn number(&self) -> u64 {
        self.cause.number()
    }

    /// Refused, unless the number is 0.
    pub(crate) fn unless_0(number: u64, place: u64) -> Result<(), Refusal> {
        match number {
            0 => Ok(()),
            _ => Err(Refusal { cause: Cause::numbered(number), place }),
        }
    }
}

impl fmt::Display for Refusal {
    fn fmt(&self, f: &mut fmt::Formatter<'_>) -> fmt::Result {
        let place = self.place;
        match self.cause {
            Cause::Alphabet => write!(f, "n must be 1 to 26, and the same for two tables"),
            Cause::Bytes => write!(f, "text too long: 1,048,576 bytes at most"),
            Cause::Byte => write!(f, "no letter at byte {place}: a to z and A to Z alone, in a list line ends too"),
            Cause::Letter => write!(f, "letter beyond n at byte {place}"),
            Cause::Unended => write!(f, "line end missing at byte {place}: each word of a list needs one"),
            Cause::Table => write!(f, "table too short, or its points are not 1 to 1,048,577"),
            Cause::Work => write!(f, "work buffer too short: {place} cells needed"),
            Cause::Canonical => write!(f, "table not canonical: cell {place} is the first that breaks a rule"),
            Cause::Output => write!(f, "output too short: length {place} needed"),
            Cause::Number => write!(f, "number in the file cut, too long or too big at byte {place}"),
            Cause::Kind => write!(f, "no saved file: it starts with neither 1 (a table) nor 2 (a list)"),
            Cause::After => write!(f, "bytes behind the end of the file, from byte {place}"),
            Cause::Unknown(number) => {
                write!(f, "refused by number {number} at {place}, which this crate does not know")
            }
        }
    }
}

/// Number, place and words: this is what a `main` that ends with a refusal shows.
impl fmt::Debug for Refusal {
    fn fmt(&self, f: &mut fmt::Formatter<'_>) -> fmt::Result {
        write!(f, "refused {} {}: {self}", self.number(), self.place)
    }
}

impl Error for Refusal {}

#[cfg(test)]
mod tests {
    use super::*;

    #[test]
    fn every_number_has_its_cause() {
        for number in 1..=12 {
            let refusal = Refusal::unless_0(number, 17).unwrap_err();
            assert_eq!(refusal.number(), number);
            assert!(!matches!(refusal.cause, Cause::Unknown(_)));
        }
        assert_eq!(Refusal::unless_0(0, 0), Ok(()));
    }

    #[test]
    fn other_numbers_are_kept() {
        for number in [13, 1 << 32, u64::MAX] {
            let refusal = Refusal::unless_0(number, 5).unwrap_err();
            assert_eq!((refusal.cause, refusal.number()), (Cause::Unknown(number), number));
        }
    }

    #[test]
    fn words_tell_what_to_mend() {
        let words = |number| Refusal::unless_0(number, 17).unwrap_err().to_string();
        assert_eq!(words(4), "letter beyond n at byte 17");
        assert_eq!(words(7), "work buffer too short: 17 cells needed");
        assert_eq!(words(9), "output too short: length 17 needed");
        assert_eq!(format!("{:?}", Refusal::unless_0(4, 17).unwrap_err()), "refused 4 17: letter beyond n at byte 17");
        assert!((1..=13).all(|number| (1..=13).all(|other| number == other || words(number) != words(other))));
    }
}
