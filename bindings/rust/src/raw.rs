//! The exported calls over tables that are always long enough. All unsafe code is here.
//!
//! Each call takes a slice as a pointer and a count of elements. What makes a call sound is
//! the same everywhere: every pointer and count comes from a live Rust reference of the right
//! element type, held for the whole call. What the call writes comes from `&mut`, so nothing
//! else overlaps it. The library keeps no pointer, and writes nothing but what is lent `&mut`.

use crate::exported::*;

/// The eight tables. Their lengths never change, so refusal 1 is never given.
#[derive(Clone)]
pub struct Tables {
    bytes: Box<[u8]>,
    used: Box<[u64]>,
    label: Box<[u32]>,
    link: Box<[u16]>,
    sets: [Box<[u64]>; 4],
}

fn blank<T: Clone + Default>(length: usize) -> Box<[T]> {
    vec![T::default(); length].into_boxed_slice()
}

impl Tables {
    /// Memory that no opening has made yet.
    pub fn unopened() -> Tables {
        Tables {
            bytes: blank(BYTES),
            used: blank(USED),
            label: blank(LABEL),
            link: blank(LINK),
            sets: [blank(SETS), blank(SETS), blank(SETS), blank(SETS)],
        }
    }
}

/// Makes a call with the tables in front; `$pointer` is `as_ptr` or `as_mut_ptr`.
macro_rules! call {
    ($name:ident, $tables:ident, $pointer:ident $(, $more:expr)*) => {
        $name(
            $tables.bytes.$pointer(), BYTES,
            $tables.used.$pointer(), USED,
            $tables.label.$pointer(), LABEL,
            $tables.link.$pointer(), LINK,
            $tables.sets[0].$pointer(), SETS,
            $tables.sets[1].$pointer(), SETS,
            $tables.sets[2].$pointer(), SETS,
            $tables.sets[3].$pointer(), SETS
            $(, $more)*
        )
    };
}

pub fn check_signature(signature: &[u8]) -> u32 {
    // Sound: only reads the one slice.
    unsafe { azunkefogo_check_signature(signature.as_ptr(), signature.len()) }
}

pub fn check_term(signature: &[u8], term: &[u8]) -> u32 {
    let (sig, count) = (signature.as_ptr(), signature.len());
    // Sound: only reads the two slices, which may overlap for that reason.
    unsafe { azunkefogo_check_term(sig, count, term.as_ptr(), term.len()) }
}

/// Answers the number, and 1 or 0.
pub fn unifiable(signature: &[u8], stored: &[u8], question: &[u8]) -> (u32, usize) {
    let mut answer = 0;
    let (sig, sig_count) = (signature.as_ptr(), signature.len());
    let (term, term_count) = (stored.as_ptr(), stored.len());
    let (asked, asked_count) = (question.as_ptr(), question.len());
    // Sound: only reads the three slices, and writes the one number of this function's own.
    let code = unsafe {
        azunkefogo_unifiable(sig, sig_count, term, term_count, asked, asked_count, &mut answer)
    };
    (code, answer)
}

/// Answers the number, and where the argument starts and how long it is.
pub fn argument(signature: &[u8], term: &[u8], number: usize) -> (u32, usize, usize) {
    let (mut start, mut length) = (0, 0);
    let (sig, count) = (signature.as_ptr(), signature.len());
    let (bytes, size) = (term.as_ptr(), term.len());
    // Sound: reads the two slices and writes the two numbers, which are this function's own.
    let code =
        unsafe { azunkefogo_argument(sig, count, bytes, size, number, &mut start, &mut length) };
    (code, start, length)
}

pub fn open(tables: &mut Tables, signature: &[u8]) -> u32 {
    let (sig, count) = (signature.as_ptr(), signature.len());
    // Sound: the tables are borrowed alone and have the lengths named; the slice is only read.
    unsafe { call!(azunkefogo_open, tables, as_mut_ptr, sig, count) }
}

/// Answers the number and the slot.
pub fn insert(tables: &mut Tables, term: &[u8]) -> (u32, usize) {
    let mut slot = 0;
    let (bytes, count) = (term.as_ptr(), term.len());
    // Sound: as for `open`; the slot's number is this function's own.
    let code = unsafe {
        call!(
            azunkefogo_insert,
            tables,
            as_mut_ptr,
            bytes,
            count,
            &mut slot
        )
    };
    (code, slot)
}

pub fn delete(tables: &mut Tables, slot: usize) -> u32 {
    // Sound: the tables are borrowed alone and have the lengths named; any slot number may be
    // given.
    unsafe { call!(azunkefogo_delete, tables, as_mut_ptr, slot) }
}

/// Answers the number and the count of slots.
pub fn with_key(tables: &Tables, key: &[u8], out: &mut [u8]) -> (u32, usize) {
    let mut count = 0;
    let (bytes, size) = (key.as_ptr(), key.len());
    let (place, room) = (out.as_mut_ptr(), out.len());
    // Sound: tables and key are only read; `out` is borrowed alone, the count is our own.
    let code = unsafe {
        call!(
            azunkefogo_with_key,
            tables,
            as_ptr,
            bytes,
            size,
            place,
            room,
            &mut count
        )
    };
    (code, count)
}

/// Answers the number, the count of candidates and the count of answers.
pub fn retrieve(
    tables: &Tables,
    relation: usize,
    question: &[u8],
    out: &mut [u8],
) -> (u32, usize, usize) {
    let (mut candidates, mut answers) = (0, 0);
    let (bytes, size) = (question.as_ptr(), question.len());
    let (place, room) = (out.as_mut_ptr(), out.len());
    let (first, second) = (&mut candidates, &mut answers);
    // Sound: tables and question are only read; `out` is borrowed alone, the numbers are ours.
    let code = unsafe {
        call!(
            azunkefogo_retrieve,
            tables,
            as_ptr,
            relation,
            bytes,
            size,
            place,
            room,
            first,
            second
        )
    };
    (code, candidates, answers)
}

/// Answers the number, the count of fields and the count of bytes written.
pub fn solve(tables: &Tables, slot: usize, question: &[u8], out: &mut [u8]) -> (u32, usize, usize) {
    let (mut fields, mut written) = (0, 0);
    let (bytes, size) = (question.as_ptr(), question.len());
    let (place, room) = (out.as_mut_ptr(), out.len());
    let (first, second) = (&mut fields, &mut written);
    // Sound: as for `retrieve`; any slot number may be given.
    let code = unsafe {
        call!(
            azunkefogo_solve,
            tables,
            as_ptr,
            slot,
            bytes,
            size,
            place,
            room,
            first,
            second
        )
    };
    (code, fields, written)
}
