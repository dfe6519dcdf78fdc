//! The store of terms with its index.

use crate::raw::{self, Tables};
use crate::record::{Record, Unifier};
use crate::refusal::{settled, Refusal};
use crate::slot::{Listing, Retrieval, Slot};
use std::fmt;

/// A listing has at most this many bytes: 512 slots of two.
pub const MOST_LISTING: usize = 1024;

/// A record has at most this many bytes: 64 fields of 5 bytes and 2,048 items.
pub const MOST_RECORD: usize = 64 * (5 + 2 * 2048);

/// Most records fit into this; only the others need the full room.
const USUAL_RECORD: usize = 4096;

/// How a stored term shall stand to the question.
///
/// ```
/// use azunkefogo::{Index, Relation};
///
/// let mut index = Index::open(&[0, 1])?;
/// let slot = index.insert(&[0, 1, 0x80, 0])?; // g(x0)
/// let question = [0, 1, 0, 0]; // g(a)
/// assert!(index.retrieve(Relation::Instance, &question)?.answers().is_empty());
/// assert_eq!(index.retrieve(Relation::Generalization, &question)?.answers(), [slot]);
/// # Ok::<(), azunkefogo::Refusal>(())
/// ```
#[derive(Clone, Copy, Debug, PartialEq, Eq, Hash)]
pub enum Relation {
    /// The same bytes.
    Equal = 0,
    /// Some replacement of variables by variables turns the question into the stored term.
    Variant = 1,
    /// Some substitution turns the question into the stored term.
    Instance = 2,
    /// Some substitution turns the stored term into the question.
    Generalization = 3,
    /// With the variables of both sides apart, some substitution makes both the same.
    Unifiable = 4,
}

/// A store of up to 512 terms with a path index over them.
///
/// It owns its memory, about 321 KiB. Questions take `&self` and change nothing, so threads may
/// ask at the same time.
///
/// ```
/// use azunkefogo::{Index, Relation};
///
/// // the symbols a, f and g, of arities 0, 2 and 1
/// let mut index = Index::open(&[0, 2, 1])?;
/// let slot = index.insert(&[0, 1, 0, 0, 0x80, 0])?; // f(a, x0)
/// let question = [0, 1, 0x80, 0, 0, 2, 0x80, 0]; // f(y0, g(y0))
/// assert_eq!(index.retrieve(Relation::Unifiable, &question)?.answers(), [slot]);
/// assert_eq!(index.solve(slot, &question)?.fields(), 2);
/// index.delete(slot)?;
/// # Ok::<(), azunkefogo::Refusal>(())
/// ```
#[derive(Clone)]
pub struct Index {
    tables: Tables,
}

impl Index {
    /// An empty store over a signature, whose byte s is the arity of symbol s.
    ///
    /// ```
    /// use azunkefogo::{Index, Refusal};
    ///
    /// assert!(Index::open(&[0, 2, 8]).is_ok());
    /// assert_eq!(Index::open(&[0, 9]).unwrap_err(), Refusal::Signature);
    /// ```
    pub fn open(signature: &[u8]) -> Result<Index, Refusal> {
        let mut tables = Tables::unopened();
        settled(raw::open(&mut tables, signature))?;
        Ok(Index { tables })
    }

    /// Empties the store and gives it another signature; refused, it stays as it was.
    ///
    /// ```
    /// use azunkefogo::{Index, Refusal};
    ///
    /// let mut index = Index::open(&[0])?;
    /// let slot = index.insert(&[0, 0])?;
    /// assert_eq!(index.reopen(&[]), Err(Refusal::Signature));
    /// index.reopen(&[0, 1])?;
    /// assert_eq!(index.delete(slot), Err(Refusal::Slot));
    /// # Ok::<(), Refusal>(())
    /// ```
    pub fn reopen(&mut self, signature: &[u8]) -> Result<(), Refusal> {
        settled(raw::open(&mut self.tables, signature))
    }

    /// Stores a term in the smallest slot not in use. The same term may stand in several.
    ///
    /// Refused with [`Refusal::Size`], [`Refusal::Odd`], [`Refusal::Symbol`],
    /// [`Refusal::Shape`], [`Refusal::Full`] or [`Refusal::Keys`].
    ///
    /// ```
    /// use azunkefogo::{Index, Refusal, Slot};
    ///
    /// let mut index = Index::open(&[0, 1])?;
    /// assert_eq!(index.insert(&[0, 1, 0x80, 0])?, Slot::from(0)); // g(x0)
    /// assert_eq!(index.insert(&[0, 1]), Err(Refusal::Shape)); // g of nothing
    /// # Ok::<(), Refusal>(())
    /// ```
    pub fn insert(&mut self, term: &[u8]) -> Result<Slot, Refusal> {
        let (code, slot) = raw::insert(&mut self.tables, term);
        settled(code)?;
        // a slot is below 512
        Ok(Slot::from(slot as u16))
    }

    /// Frees a slot; a later insert may take it again.
    ///
    /// ```
    /// use azunkefogo::{Index, Refusal};
    ///
    /// let mut index = Index::open(&[0])?;
    /// let slot = index.insert(&[0, 0])?;
    /// assert_eq!(index.delete(slot), Ok(()));
    /// assert_eq!(index.delete(slot), Err(Refusal::Slot));
    /// # Ok::<(), Refusal>(())
    /// ```
    pub fn delete(&mut self, slot: Slot) -> Result<(), Refusal> {
        settled(raw::delete(&mut self.tables, slot.number().into()))
    }

    /// The stored terms that stand in the relation to the question.
    ///
    /// Refused with [`Refusal::Size`], [`Refusal::Odd`], [`Refusal::Symbol`] or
    /// [`Refusal::Shape`].
    ///
    /// ```
    /// use azunkefogo::{Index, Relation};
    ///
    /// let mut index = Index::open(&[0, 1])?;
    /// index.insert(&[0, 0])?; // a
    /// let slot = index.insert(&[0, 1, 0, 0])?; // g(a)
    /// let found = index.retrieve(Relation::Unifiable, &[0, 1, 0x80, 0])?; // g(y0)
    /// assert_eq!(found.candidates(), 1);
    /// assert_eq!(found.answers(), [slot]);
    /// # Ok::<(), azunkefogo::Refusal>(())
    /// ```
    pub fn retrieve(&self, relation: Relation, question: &[u8]) -> Result<Retrieval, Refusal> {
        let mut buffer = [0; MOST_LISTING];
        let (candidates, listing) = self.retrieve_into(relation, question, &mut buffer)?;
        Ok(Retrieval::new(candidates, listing.iter().collect()))
    }

    /// As [`retrieve`](Index::retrieve), the listing in the caller's buffer: the number of
    /// candidates and the answers. [`MOST_LISTING`] bytes of room always suffice.
    ///
    /// ```
    /// use azunkefogo::{Index, Refusal, Relation};
    ///
    /// let mut index = Index::open(&[0])?;
    /// let slot = index.insert(&[0, 0])?;
    /// let mut buffer = [0; 2];
    /// let (candidates, listing) = index.retrieve_into(Relation::Equal, &[0, 0], &mut buffer)?;
    /// assert_eq!(candidates, 1);
    /// assert!(listing.iter().eq([slot]));
    /// let cramped = index.retrieve_into(Relation::Equal, &[0, 0], &mut buffer[..1]);
    /// assert_eq!(cramped, Err(Refusal::Room));
    /// # Ok::<(), Refusal>(())
    /// ```
    pub fn retrieve_into<'a>(
        &self,
        relation: Relation,
        question: &[u8],
        out: &'a mut [u8],
    ) -> Result<(usize, Listing<'a>), Refusal> {
        let (code, candidates, answers) =
            raw::retrieve(&self.tables, relation as usize, question, out);
        settled(code)?;
        Ok((candidates, Listing::new(&out[..2 * answers])))
    }

    /// The slots whose term has a key: up to 31 steps of a symbol's two bytes and an argument
    /// number, then two bytes of a symbol, or 0xFFFF for any variable.
    ///
    /// Refused with [`Refusal::Key`].
    ///
    /// ```
    /// use azunkefogo::{Index, Refusal};
    ///
    /// let mut index = Index::open(&[0, 1])?;
    /// let slot = index.insert(&[0, 1, 0x80, 0])?; // g(x0)
    /// assert_eq!(index.with_key(&[0, 1, 1, 0xFF, 0xFF])?, [slot]);
    /// assert_eq!(index.with_key(&[0, 1, 2, 0xFF, 0xFF]), Err(Refusal::Key));
    /// # Ok::<(), Refusal>(())
    /// ```
    pub fn with_key(&self, key: &[u8]) -> Result<Vec<Slot>, Refusal> {
        let mut buffer = [0; MOST_LISTING];
        let listing = self.with_key_into(key, &mut buffer)?;
        Ok(listing.iter().collect())
    }

    /// As [`with_key`](Index::with_key), the listing in the caller's buffer. [`MOST_LISTING`]
    /// bytes of room always suffice.
    ///
    /// ```
    /// use azunkefogo::{Index, Refusal};
    ///
    /// let mut index = Index::open(&[0])?;
    /// index.insert(&[0, 0])?;
    /// let mut buffer = [0; 2];
    /// assert_eq!(index.with_key_into(&[0, 0], &mut buffer)?.len(), 1);
    /// assert_eq!(index.with_key_into(&[0, 0], &mut []), Err(Refusal::Room));
    /// # Ok::<(), Refusal>(())
    /// ```
    pub fn with_key_into<'a>(&self, key: &[u8], out: &'a mut [u8]) -> Result<Listing<'a>, Refusal> {
        let (code, count) = raw::with_key(&self.tables, key, out);
        settled(code)?;
        Ok(Listing::new(&out[..2 * count]))
    }

    /// The most general unifier of a slot's term and the question.
    ///
    /// Refused with [`Refusal::Slot`], [`Refusal::Size`], [`Refusal::Odd`],
    /// [`Refusal::Symbol`], [`Refusal::Shape`], [`Refusal::Nothing`] or [`Refusal::Long`].
    ///
    /// ```
    /// use azunkefogo::{Index, Refusal};
    ///
    /// let mut index = Index::open(&[0, 1])?;
    /// let slot = index.insert(&[0, 1, 0x80, 0])?; // g(x0)
    /// let unifier = index.solve(slot, &[0, 1, 0, 0])?; // g(a)
    /// let shown: Vec<String> = unifier
    ///     .bindings()
    ///     .map(|binding| format!("{} = {:?}", binding.variable(), binding.value()))
    ///     .collect();
    /// assert_eq!(shown, ["x0 = [0, 0]"]);
    /// assert_eq!(index.solve(slot, &[0, 0]), Err(Refusal::Nothing)); // a
    /// # Ok::<(), Refusal>(())
    /// ```
    pub fn solve(&self, slot: Slot, question: &[u8]) -> Result<Unifier, Refusal> {
        let mut usual = [0; USUAL_RECORD];
        match self.solve_into(slot, question, &mut usual) {
            Err(Refusal::Room) => {
                let mut most = vec![0; MOST_RECORD];
                self.solve_into(slot, question, &mut most).map(Unifier::new)
            }
            settled => settled.map(Unifier::new),
        }
    }

    /// As [`solve`](Index::solve), the record in the caller's buffer. [`MOST_RECORD`] bytes of
    /// room always suffice.
    ///
    /// ```
    /// use azunkefogo::{Index, Refusal};
    ///
    /// let mut index = Index::open(&[0])?;
    /// let slot = index.insert(&[0, 0])?;
    /// let mut buffer = [0; 7];
    /// assert_eq!(index.solve_into(slot, &[0x80, 0], &mut buffer)?.fields(), 1);
    /// let cramped = index.solve_into(slot, &[0x80, 0], &mut buffer[..6]);
    /// assert_eq!(cramped, Err(Refusal::Room));
    /// # Ok::<(), Refusal>(())
    /// ```
    pub fn solve_into<'a>(
        &self,
        slot: Slot,
        question: &[u8],
        out: &'a mut [u8],
    ) -> Result<Record<'a>, Refusal> {
        let (code, fields, written) = raw::solve(&self.tables, slot.number().into(), question, out);
        settled(code)?;
        Ok(Record::new(fields, &out[..written]))
    }
}

/// The tables are private, so there is nothing to show.
impl fmt::Debug for Index {
    fn fmt(&self, f: &mut fmt::Formatter<'_>) -> fmt::Result {
        f.debug_struct("Index").finish_non_exhaustive()
    }
}
