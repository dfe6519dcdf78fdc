//! The exported calls as Rust sees them, and the tables' lengths. Tests and benchmarks use this file too, so that a call
//! is declared once; `scripts/exported` compares it with the calls' definitions.

/// The tables' lengths, in elements.
pub const BYTES: usize = 33_538;
pub const USED: usize = 8;
pub const LABEL: usize = 4096;
pub const LINK: usize = 8190;
pub const SETS: usize = 8192;

/// Declares calls whose first arguments are the eight tables.
macro_rules! exported {
    ($($name:ident ($($more:ident : $kind:ty),*) over $pointer:tt;)*) => {
        extern "C" {
            $(pub fn $name(
                bytes: *$pointer u8, bytes_count: usize,
                used: *$pointer u64, used_count: usize,
                label: *$pointer u32, label_count: usize,
                link: *$pointer u16, link_count: usize,
                sets0: *$pointer u64, sets0_count: usize,
                sets1: *$pointer u64, sets1_count: usize,
                sets2: *$pointer u64, sets2_count: usize,
                sets3: *$pointer u64, sets3_count: usize,
                $($more: $kind),*
            ) -> u32;)*
        }
    };
}

exported! {
    azunkefogo_open(signature: *const u8, signature_count: usize) over mut;
    azunkefogo_insert(term: *const u8, term_count: usize, slot: *mut usize) over mut;
    azunkefogo_delete(slot: usize) over mut;
    azunkefogo_with_key(
        key: *const u8, key_count: usize,
        out: *mut u8, out_count: usize,
        count: *mut usize
    ) over const;
    azunkefogo_retrieve(
        relation: usize,
        question: *const u8, question_count: usize,
        out: *mut u8, out_count: usize,
        candidates: *mut usize, answers: *mut usize
    ) over const;
    azunkefogo_solve(
        slot: usize,
        question: *const u8, question_count: usize,
        out: *mut u8, out_count: usize,
        fields: *mut usize, written: *mut usize
    ) over const;
}

extern "C" {
    pub fn azunkefogo_check_signature(signature: *const u8, signature_count: usize) -> u32;
    pub fn azunkefogo_check_term(
        signature: *const u8,
        signature_count: usize,
        term: *const u8,
        term_count: usize,
    ) -> u32;
    pub fn azunkefogo_argument(
        signature: *const u8,
        signature_count: usize,
        term: *const u8,
        term_count: usize,
        i: usize,
        start: *mut usize,
        length: *mut usize,
    ) -> u32;
    pub fn azunkefogo_unifiable(
        signature: *const u8,
        signature_count: usize,
        stored: *const u8,
        stored_count: usize,
        question: *const u8,
        question_count: usize,
        answer: *mut usize,
    ) -> u32;
}
