//! A verified index of first-order terms: a store of up to 512 terms, five retrievals over a
//! path index, and a solver that writes the most general unifier.
//!
//! Terms are bytes. A signature gives each symbol its arity, byte s for symbol s. An item is
//! two bytes, high byte first: a symbol's number, or 0x8000 + v for variable v (0 to 31). A
//! term is an item and then the terms of its arguments. It has 1 to 32 items. The variables of
//! a stored term (shown x0, x1) and of a question (y0, y1) are apart.
//!
//! ```
//! use azunkefogo::{Index, Relation};
//!
//! let mut index = Index::open(&[0, 0, 2, 1])?; // a, b, f(2), g(1)
//! let slot = index.insert(&[0, 2, 0, 0, 0x80, 0])?; // f(a, x0)
//! let question = [0, 2, 0x80, 0, 0, 3, 0x80, 0]; // f(y0, g(y0))
//! let found = index.retrieve(Relation::Unifiable, &question)?;
//! assert_eq!(found.answers(), [slot]);
//! for binding in index.solve(slot, &question)?.bindings() {
//!     println!("{} = {:?}", binding.variable(), binding.items().collect::<Vec<_>>());
//! }
//! # Ok::<(), azunkefogo::Refusal>(())
//! ```
//!
//! A refused call changes nothing. The manual, docs/MANUAL.md of the repository, has the exact
//! condition of each [`Refusal`] and the order in which they are tested.

#![deny(missing_docs)]
#![deny(unsafe_code)]

mod exported;
mod index;
#[allow(unsafe_code)]
mod raw;
mod record;
mod refusal;
mod slot;

pub use index::{Index, Relation, MOST_LISTING, MOST_RECORD};
pub use record::{Binding, Bindings, Item, Record, Unifier, Variable};
pub use refusal::Refusal;
pub use slot::{Listing, Retrieval, Slot};

use refusal::settled;

/// Whether the bytes are a signature.
///
/// Refused with [`Refusal::Signature`].
///
/// ```
/// use azunkefogo::{check_signature, Refusal};
///
/// assert_eq!(check_signature(&[0, 8]), Ok(()));
/// assert_eq!(check_signature(&[]), Err(Refusal::Signature));
/// ```
pub fn check_signature(signature: &[u8]) -> Result<(), Refusal> {
    settled(raw::check_signature(signature))
}

/// Whether the bytes are a term over a signature. The signature itself is not checked.
///
/// Refused with [`Refusal::Size`], [`Refusal::Odd`], [`Refusal::Symbol`] or [`Refusal::Shape`].
///
/// ```
/// use azunkefogo::{check_term, Refusal};
///
/// let signature = [0, 2]; // a, f(2)
/// assert_eq!(check_term(&signature, &[0, 1, 0, 0, 0x80, 0]), Ok(())); // f(a, x0)
/// assert_eq!(check_term(&signature, &[0, 1, 0, 0]), Err(Refusal::Shape));
/// ```
pub fn check_term(signature: &[u8], term: &[u8]) -> Result<(), Refusal> {
    settled(raw::check_term(signature, term))
}

/// Whether a stored term and a question are unifiable, their variables apart; no index is needed.
///
/// Refused with [`Refusal::Signature`], or as [`check_term`] refuses, with the first in rank over both terms.
///
/// ```
/// use azunkefogo::{unifiable, Refusal};
///
/// let signature = [0, 1]; // a, g(1)
/// assert_eq!(unifiable(&signature, &[0x80, 0], &[0, 1, 0x80, 0]), Ok(true)); // x0, g(x0): two variables
/// assert_eq!(unifiable(&signature, &[0, 0], &[0, 1, 0x80, 0]), Ok(false)); // a, g(x0)
/// assert_eq!(unifiable(&signature, &[0, 0], &[]), Err(Refusal::Odd));
/// ```
pub fn unifiable(signature: &[u8], stored: &[u8], question: &[u8]) -> Result<bool, Refusal> {
    let (code, answer) = raw::unifiable(signature, stored, question);
    settled(code)?;
    Ok(answer == 1)
}

/// Argument `i` of a term as the part of its bytes where it stands; the first argument is 1.
///
/// Refused as [`check_term`] refuses, and with [`Refusal::Argument`].
///
/// ```
/// use azunkefogo::{argument, Refusal};
///
/// let signature = [0, 2]; // a, f(2)
/// let term = [0, 1, 0, 0, 0x80, 0]; // f(a, x0)
/// assert_eq!(argument(&signature, &term, 2)?, &term[4..6]);
/// assert_eq!(argument(&signature, &term, 3), Err(Refusal::Argument));
/// # Ok::<(), Refusal>(())
/// ```
pub fn argument<'a>(signature: &[u8], term: &'a [u8], i: usize) -> Result<&'a [u8], Refusal> {
    let (code, start, length) = raw::argument(signature, term, i);
    settled(code)?;
    Ok(&term[start..start + length])
}
