//! The exported calls of the library, and tables to lend to them.

use crate::exported::*;

/// The eight tables, with the lengths that docs/TABLES.md gives.
#[derive(Clone)]
pub struct Tables {
    bytes: Vec<u8>,
    used: Vec<u64>,
    label: Vec<u32>,
    link: Vec<u16>,
    sets: [Vec<u64>; 4],
}

/// Whether two terms are unifiable, by the library's own unifier and without tables.
pub fn unifiable(signature: &[u8], stored: &[u8], question: &[u8]) -> bool {
    let mut answer = 0;
    let number = unsafe {
        azunkefogo_unifiable(
            signature.as_ptr(), signature.len(),
            stored.as_ptr(), stored.len(),
            question.as_ptr(), question.len(),
            &mut answer,
        )
    };
    assert_eq!(number, 0, "both are terms");
    answer == 1
}

/// Calls an exported function with the eight tables in front: each pointer is to a buffer of
/// its own that lives for the whole call.
macro_rules! with_tables {
    ($name:ident, $get:ident, $tables:expr, $($more:expr),*) => {{
        let Tables { bytes, used, label, link, sets: [sets0, sets1, sets2, sets3] } = $tables;
        unsafe {
            $name(
                bytes.$get(), bytes.len(), used.$get(), used.len(),
                label.$get(), label.len(), link.$get(), link.len(),
                sets0.$get(), sets0.len(), sets1.$get(), sets1.len(),
                sets2.$get(), sets2.len(), sets3.$get(), sets3.len(),
                $($more),*
            )
        }
    }};
}

/// The number 0 or a refusal's.
fn answer<T>(number: u32, value: T) -> Result<T, u32> {
    match number {
        0 => Ok(value),
        refusal => Err(refusal),
    }
}

impl Tables {
    pub fn open(signature: &[u8]) -> Tables {
        let mut tables = Tables {
            bytes: vec![0; BYTES],
            used: vec![0; USED],
            label: vec![0; LABEL],
            link: vec![0; LINK],
            sets: std::array::from_fn(|_| vec![0; SETS]),
        };
        tables.clear(signature);
        tables
    }

    /// Opens again.
    pub fn clear(&mut self, signature: &[u8]) {
        let (pointer, count) = (signature.as_ptr(), signature.len());
        let number = with_tables!(azunkefogo_open, as_mut_ptr, self, pointer, count);
        assert_eq!(number, 0, "the signature is accepted");
    }

    /// The bytes of the record of a slot's term and a question.
    pub fn solve(&self, slot: usize, question: &[u8], out: &mut [u8]) -> Result<usize, u32> {
        let (mut fields, mut written) = (0, 0);
        let (pointer, count) = (question.as_ptr(), question.len());
        let (to, room) = (out.as_mut_ptr(), out.len());
        let number = with_tables!(
            azunkefogo_solve, as_ptr, self, slot, pointer, count, to, room, &mut fields, &mut written
        );
        answer(number, written)
    }

    pub fn insert(&mut self, term: &[u8]) -> Result<usize, u32> {
        let mut slot = 0;
        let (pointer, count) = (term.as_ptr(), term.len());
        let number = with_tables!(azunkefogo_insert, as_mut_ptr, self, pointer, count, &mut slot);
        answer(number, slot)
    }

    pub fn delete(&mut self, slot: usize) -> Result<(), u32> {
        let number = with_tables!(azunkefogo_delete, as_mut_ptr, self, slot);
        answer(number, ())
    }

    /// The number of candidates and of answers; the listing goes to `out`.
    pub fn retrieve(
        &self,
        relation: usize,
        question: &[u8],
        out: &mut [u8],
    ) -> Result<(usize, usize), u32> {
        let (mut candidates, mut answers) = (0, 0);
        let (pointer, count) = (question.as_ptr(), question.len());
        let (room, size) = (out.as_mut_ptr(), out.len());
        let number = with_tables!(
            azunkefogo_retrieve,
            as_ptr,
            self,
            relation,
            pointer,
            count,
            room,
            size,
            &mut candidates,
            &mut answers
        );
        answer(number, (candidates, answers))
    }

    /// A copy whose stored terms have no bytes, so that each confirmation ends at once.
    pub fn without_terms(&self) -> Tables {
        let mut copy = self.clone();
        copy.bytes[258..770].fill(0);
        copy
    }
}
