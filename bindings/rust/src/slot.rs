//! Slots and listings of them.

use std::fmt;

/// The place of a stored term. An insert answers it; after a delete the same place may be
/// given to another term.
///
/// ```
/// use azunkefogo::Slot;
///
/// let slot = Slot::from(7);
/// assert_eq!(slot.number(), 7);
/// assert_eq!(slot.to_string(), "7");
/// ```
#[derive(Clone, Copy, Debug, PartialEq, Eq, PartialOrd, Ord, Hash)]
pub struct Slot(u16);

impl Slot {
    /// The slot's number.
    ///
    /// ```
    /// assert_eq!(azunkefogo::Slot::from(511).number(), 511);
    /// ```
    pub fn number(self) -> u16 {
        self.0
    }
}

/// Any number makes a slot; a call refuses those above 511 like those not in use.
impl From<u16> for Slot {
    fn from(number: u16) -> Slot {
        Slot(number)
    }
}

impl fmt::Display for Slot {
    fn fmt(&self, f: &mut fmt::Formatter<'_>) -> fmt::Result {
        write!(f, "{}", self.0)
    }
}

/// Slots, ascending, as they stand in a caller's buffer: two bytes each, high byte first.
///
/// ```
/// use azunkefogo::{Index, Slot};
///
/// let mut index = Index::open(&[0])?;
/// index.insert(&[0, 0])?;
/// index.insert(&[0, 0])?;
/// let mut buffer = [0; 4];
/// let listing = index.with_key_into(&[0, 0], &mut buffer)?;
/// assert_eq!(listing.len(), 2);
/// assert_eq!(listing.iter().collect::<Vec<_>>(), [Slot::from(0), Slot::from(1)]);
/// # Ok::<(), azunkefogo::Refusal>(())
/// ```
#[derive(Clone, Copy, Debug, PartialEq, Eq)]
pub struct Listing<'a> {
    bytes: &'a [u8],
}

impl<'a> Listing<'a> {
    pub(crate) fn new(bytes: &'a [u8]) -> Listing<'a> {
        Listing { bytes }
    }

    /// How many slots there are.
    ///
    /// ```
    /// # let index = azunkefogo::Index::open(&[0])?;
    /// let mut buffer = [0; 4];
    /// assert_eq!(index.with_key_into(&[0, 0], &mut buffer)?.len(), 0);
    /// # Ok::<(), azunkefogo::Refusal>(())
    /// ```
    pub fn len(&self) -> usize {
        self.bytes.len() / 2
    }

    /// Whether there is no slot.
    ///
    /// ```
    /// # let index = azunkefogo::Index::open(&[0])?;
    /// let mut buffer = [0; 4];
    /// assert!(index.with_key_into(&[0, 0], &mut buffer)?.is_empty());
    /// # Ok::<(), azunkefogo::Refusal>(())
    /// ```
    pub fn is_empty(&self) -> bool {
        self.bytes.is_empty()
    }

    /// The listing's bytes.
    ///
    /// ```
    /// # let mut index = azunkefogo::Index::open(&[0])?;
    /// # index.insert(&[0, 0])?;
    /// let mut buffer = [0; 4];
    /// assert_eq!(index.with_key_into(&[0, 0], &mut buffer)?.bytes(), [0, 0]);
    /// # Ok::<(), azunkefogo::Refusal>(())
    /// ```
    pub fn bytes(&self) -> &'a [u8] {
        self.bytes
    }

    /// The slots, ascending.
    ///
    /// ```
    /// # let mut index = azunkefogo::Index::open(&[0])?;
    /// # index.insert(&[0, 0])?;
    /// let mut buffer = [0; 4];
    /// for slot in index.with_key_into(&[0, 0], &mut buffer)?.iter() {
    ///     assert_eq!(slot.number(), 0);
    /// }
    /// # Ok::<(), azunkefogo::Refusal>(())
    /// ```
    pub fn iter(&self) -> impl Iterator<Item = Slot> + 'a {
        let pairs = self.bytes.chunks_exact(2);
        pairs.map(|pair| Slot(u16::from_be_bytes([pair[0], pair[1]])))
    }
}

/// What a retrieval found: the number of candidates, and the answers.
///
/// ```
/// use azunkefogo::{Index, Relation};
///
/// let mut index = Index::open(&[0, 1])?;
/// let slot = index.insert(&[0, 1, 0, 0])?;
/// let found = index.retrieve(Relation::Instance, &[0x80, 0])?;
/// for answer in &found {
///     assert_eq!(answer, slot);
/// }
/// # Ok::<(), azunkefogo::Refusal>(())
/// ```
#[derive(Clone, Debug, PartialEq, Eq)]
pub struct Retrieval {
    candidates: usize,
    answers: Vec<Slot>,
}

impl Retrieval {
    pub(crate) fn new(candidates: usize, answers: Vec<Slot>) -> Retrieval {
        Retrieval {
            candidates,
            answers,
        }
    }

    /// How many stored terms the index left to be tried; never fewer than the answers.
    ///
    /// ```
    /// use azunkefogo::{Index, Relation};
    ///
    /// let mut index = Index::open(&[0, 2])?;
    /// index.insert(&[0, 1, 0x80, 0, 0x80, 0])?;
    /// // f(x0, x0) against f(y0, f(y0, y0)): agrees at each place met, but has no unifier
    /// let question = [0, 1, 0x80, 0, 0, 1, 0x80, 0, 0x80, 0];
    /// let found = index.retrieve(Relation::Unifiable, &question)?;
    /// assert_eq!(found.candidates(), 1);
    /// assert!(found.answers().is_empty());
    /// # Ok::<(), azunkefogo::Refusal>(())
    /// ```
    pub fn candidates(&self) -> usize {
        self.candidates
    }

    /// The slots whose term stands in the relation to the question, ascending.
    ///
    /// ```
    /// use azunkefogo::{Index, Relation};
    ///
    /// let mut index = Index::open(&[0])?;
    /// let slot = index.insert(&[0, 0])?;
    /// assert_eq!(index.retrieve(Relation::Equal, &[0, 0])?.answers(), [slot]);
    /// # Ok::<(), azunkefogo::Refusal>(())
    /// ```
    pub fn answers(&self) -> &[Slot] {
        &self.answers
    }

    /// The answers, one by one.
    ///
    /// ```
    /// use azunkefogo::{Index, Relation};
    ///
    /// let index = Index::open(&[0])?;
    /// assert_eq!(index.retrieve(Relation::Equal, &[0, 0])?.iter().count(), 0);
    /// # Ok::<(), azunkefogo::Refusal>(())
    /// ```
    pub fn iter(&self) -> impl Iterator<Item = Slot> + '_ {
        self.answers.iter().copied()
    }
}

impl IntoIterator for Retrieval {
    type Item = Slot;
    type IntoIter = std::vec::IntoIter<Slot>;

    fn into_iter(self) -> Self::IntoIter {
        self.answers.into_iter()
    }
}

impl<'a> IntoIterator for &'a Retrieval {
    type Item = Slot;
    type IntoIter = std::iter::Copied<std::slice::Iter<'a, Slot>>;

    fn into_iter(self) -> Self::IntoIter {
        self.answers.iter().copied()
    }
}
