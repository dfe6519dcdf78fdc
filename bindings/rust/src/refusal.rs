//! Why a call is refused.

use std::error::Error;
use std::fmt;

/// Why a call was refused. Of the reasons that apply, the first in rank is given; for the numbers
/// 1 to 16 the rank is the order of the numbers. The type itself is not ordered, since the ranks
/// of numbers to come are another order than the numbers.
///
/// A refused call changes nothing: not the index, and not a caller's buffer.
///
/// ```
/// use azunkefogo::{check_term, Refusal};
///
/// let refused = check_term(&[0, 2], &[]).unwrap_err();
/// assert_eq!(refused, Refusal::Odd);
/// assert_eq!(refused.number(), 6);
/// assert_eq!(refused.name(), "ODD");
/// ```
#[derive(Clone, Copy, Debug, PartialEq, Eq, Hash)]
#[non_exhaustive]
pub enum Refusal {
    /// 1: a lent table is too short. An [`Index`](crate::Index) never gets it.
    Table = 1,
    /// 2: a signature of 0 or over 256 bytes, or an arity above 8.
    Signature,
    /// 3: a relation above 4. [`Relation`](crate::Relation) has no such value.
    Relation,
    /// 4: a slot above 511 or not in use.
    Slot,
    /// 5: a term of over 64 bytes.
    Size,
    /// 6: a term of no bytes or of an odd count.
    Odd,
    /// 7: an item that is neither a declared symbol nor a variable from 0 to 31.
    Symbol,
    /// 8: the items end inside a term, or go on after it.
    Shape,
    /// 9: bytes that are no key.
    Key,
    /// 10: an argument number of 0 or above the arity.
    Argument,
    /// 11: all 512 slots are in use.
    Full,
    /// 12: the stored terms would have over 4,096 distinct keys.
    Keys,
    /// 13: there is no unifier.
    Nothing,
    /// 14: a value of the unifier has over 2,048 items.
    Long,
    /// 15: the caller's buffer is shorter than the answer; only from `*_into` methods.
    Room,
    /// 16: a faulty log. Only the program `replay` gives it.
    Log,
}

/// Every refusal with its name and what it means, in the order of the numbers.
const ALL: [(Refusal, &str, &str); 16] = [
    (Refusal::Table, "TABLE", "a lent table is too short"),
    (
        Refusal::Signature,
        "SIG",
        "the signature has 0 or over 256 bytes, or an arity above 8",
    ),
    (Refusal::Relation, "RELATION", "the relation is above 4"),
    (Refusal::Slot, "SLOT", "the slot is above 511 or not in use"),
    (Refusal::Size, "SIZE", "the term has over 64 bytes"),
    (
        Refusal::Odd,
        "ODD",
        "the term has no bytes or an odd count of them",
    ),
    (
        Refusal::Symbol,
        "SYMBOL",
        "an item is neither a declared symbol nor a variable",
    ),
    (
        Refusal::Shape,
        "SHAPE",
        "the items end inside a term, or go on after it",
    ),
    (Refusal::Key, "KEY", "the bytes are no key"),
    (
        Refusal::Argument,
        "ARG",
        "the term has no argument of that number",
    ),
    (Refusal::Full, "FULL", "all 512 slots are in use"),
    (
        Refusal::Keys,
        "KEYS",
        "the stored terms would have over 4,096 distinct keys",
    ),
    (Refusal::Nothing, "NONE", "there is no unifier"),
    (
        Refusal::Long,
        "LONG",
        "a value of the unifier has over 2,048 items",
    ),
    (
        Refusal::Room,
        "ROOM",
        "the buffer is shorter than the answer",
    ),
    (Refusal::Log, "LOG", "the log is faulty"),
];

impl Refusal {
    /// The number that the C call answers.
    ///
    /// ```
    /// assert_eq!(azunkefogo::Refusal::Nothing.number(), 13);
    /// ```
    pub fn number(self) -> u32 {
        self as u32
    }

    /// The name, as the manual has it.
    ///
    /// ```
    /// assert_eq!(azunkefogo::Refusal::Nothing.name(), "NONE");
    /// ```
    pub fn name(self) -> &'static str {
        ALL[self as usize - 1].1
    }

    /// The refusal with a number.
    ///
    /// ```
    /// use azunkefogo::Refusal;
    ///
    /// assert_eq!(Refusal::from_number(8), Some(Refusal::Shape));
    /// assert_eq!(Refusal::from_number(0), None);
    /// ```
    pub fn from_number(number: u32) -> Option<Refusal> {
        let found = ALL.iter().find(|(refusal, ..)| refusal.number() == number);
        found.map(|&(refusal, ..)| refusal)
    }
}

impl fmt::Display for Refusal {
    fn fmt(&self, f: &mut fmt::Formatter<'_>) -> fmt::Result {
        let (_, name, meaning) = ALL[*self as usize - 1];
        write!(f, "{name} ({}): {meaning}", self.number())
    }
}

impl Error for Refusal {}

/// What a call's number means. The library answers 0 to 16; another number would mean that
/// something else was linked.
pub(crate) fn settled(number: u32) -> Result<(), Refusal> {
    match (number, Refusal::from_number(number)) {
        (0, _) => Ok(()),
        (_, Some(refusal)) => Err(refusal),
        _ => panic!("the linked library answered {number}, which is no refusal"),
    }
}
