//! The exported calls of the library under test, and memory to lend to them: every lent
//! buffer stands between guard bytes and remembers what it held.

use crate::exported::*;
use crate::random::Random;

/// Element size in bytes and element count of each table, in the order of the calls.
pub const TABLES: [(usize, usize); 8] = [
    (1, BYTES),
    (8, USED),
    (4, LABEL),
    (2, LINK),
    (8, SETS),
    (8, SETS),
    (8, SETS),
    (8, SETS),
];

const GUARD: usize = 64;

fn guard_byte(place: usize) -> u8 {
    (place as u8).wrapping_mul(37) ^ 0xA5
}

/// A lent buffer.
#[derive(Clone)]
pub struct Lent {
    backing: Vec<u64>,
    start: usize,
    length: usize,
    element: usize,
    original: Vec<u8>,
}

impl Lent {
    /// Holds `content` as elements of `element` bytes; `shift` moves bytes off alignment.
    pub fn new(content: &[u8], element: usize, shift: usize) -> Lent {
        let start = GUARD + if element == 1 { shift % 8 } else { 0 };
        let whole = start + content.len() + GUARD;
        let mut lent = Lent {
            backing: vec![0; whole.div_ceil(8)],
            start,
            length: content.len(),
            element,
            original: content.to_vec(),
        };
        let end = start + content.len();
        for (place, byte) in lent.whole_mut().iter_mut().enumerate() {
            let inside = (start..end).contains(&place);
            *byte = match inside {
                true => content[place - start],
                false => guard_byte(place),
            };
        }
        lent
    }

    /// One number, for a call to write.
    pub fn number(before: u64) -> Lent {
        Lent::new(&before.to_ne_bytes(), 8, 0)
    }

    fn whole(&self) -> &[u8] {
        let pointer = self.backing.as_ptr().cast::<u8>();
        // The backing's own bytes: any eight bytes are a u64 and the other way round.
        unsafe { std::slice::from_raw_parts(pointer, 8 * self.backing.len()) }
    }

    fn whole_mut(&mut self) -> &mut [u8] {
        let pointer = self.backing.as_mut_ptr().cast::<u8>();
        // As above.
        unsafe { std::slice::from_raw_parts_mut(pointer, 8 * self.backing.len()) }
    }

    pub fn content(&self) -> &[u8] {
        &self.whole()[self.start..self.start + self.length]
    }

    pub fn value(&self) -> u64 {
        u64::from_ne_bytes(self.content().try_into().expect("one number"))
    }

    pub fn is_unchanged(&self) -> bool {
        self.content() == self.original
    }

    /// Whether all bytes from `place` on are as they were.
    pub fn is_unchanged_from(&self, place: usize) -> bool {
        self.content()[place..] == self.original[place..]
    }

    pub fn is_guarded(&self) -> bool {
        let end = self.start + self.length;
        let mut outside = self.whole().iter().enumerate();
        let is_right = |(place, &byte): (usize, &u8)| byte == guard_byte(place);
        let before = outside.by_ref().take(self.start).all(is_right);
        before && outside.skip(end - self.start).all(is_right)
    }

    /// Takes the present content as what is to stay.
    pub fn accept(&mut self) {
        self.original = self.content().to_vec();
    }

    pub fn damage(&mut self, random: &mut Random, count: usize) {
        let (start, length) = (self.start, self.length);
        for _ in 0..count {
            let place = start + random.below(length);
            self.whole_mut()[place] = random.byte();
        }
        self.accept();
    }

    fn count(&self) -> usize {
        self.length / self.element
    }

    fn pointer<T>(&self) -> *const T {
        self.whole()[self.start..].as_ptr().cast()
    }

    fn pointer_mut<T>(&mut self) -> *mut T {
        let start = self.start;
        self.whole_mut()[start..].as_mut_ptr().cast()
    }
}

/// The eight tables.
#[derive(Clone)]
pub struct Tables(pub Vec<Lent>);

impl Tables {
    /// Tables of random content, each at least as long as documented, some longer.
    pub fn garbage(random: &mut Random) -> Tables {
        let longer = *random.pick(&[0, 0, 1, 2, 40]);
        let mut lent = Vec::new();
        for (element, count) in TABLES {
            let more = random.below(longer + 1);
            let content = random.bytes(element * (count + more));
            lent.push(Lent::new(&content, element, random.below(8)));
        }
        Tables(lent)
    }

    /// A copy in which the named table has `count` elements only.
    pub fn shortened(&self, table: usize, count: usize) -> Tables {
        let mut copy = self.clone();
        let element = TABLES[table].0;
        let content = &self.0[table].content()[..element * count];
        copy.0[table] = Lent::new(content, element, 0);
        copy
    }

    pub fn are_unchanged(&self) -> bool {
        self.0.iter().all(Lent::is_unchanged)
    }

    /// Whether no byte beyond the documented lengths has changed.
    pub fn are_unchanged_beyond(&self) -> bool {
        let mut tables = self.0.iter().zip(TABLES);
        tables.all(|(lent, (element, count))| lent.is_unchanged_from(element * count))
    }

    pub fn are_guarded(&self) -> bool {
        self.0.iter().all(Lent::is_guarded)
    }

    /// After a call that may have changed them.
    pub fn accept_if(&mut self, changed: bool) {
        if changed {
            self.0.iter_mut().for_each(Lent::accept);
        }
    }
}

/// Calls an exported function with the eight tables in front. The pointers are into lent
/// buffers that live, apart from one another, for the whole call.
macro_rules! with_tables {
    ($name:ident, $get:ident, $tables:expr, $($more:expr),*) => {{
        let counts: Vec<usize> = $tables.0.iter().map(Lent::count).collect();
        let t = &mut $tables.0;
        unsafe {
            $name(
                t[0].$get(), counts[0], t[1].$get(), counts[1],
                t[2].$get(), counts[2], t[3].$get(), counts[3],
                t[4].$get(), counts[4], t[5].$get(), counts[5],
                t[6].$get(), counts[6], t[7].$get(), counts[7],
                $($more),*
            )
        }
    }};
}

pub fn check_signature(signature: &Lent) -> u32 {
    unsafe { azunkefogo_check_signature(signature.pointer(), signature.count()) }
}

pub fn check_term(signature: &Lent, term: &Lent) -> u32 {
    let (sig, sig_count) = (signature.pointer(), signature.count());
    unsafe { azunkefogo_check_term(sig, sig_count, term.pointer(), term.count()) }
}

pub fn unifiable(inputs: &[Lent], numbers: &mut [Lent]) -> u32 {
    let [signature, stored, question] = inputs else { panic!("three inputs") };
    let (sig, sig_count) = (signature.pointer(), signature.count());
    let (term, term_count) = (stored.pointer(), stored.count());
    let (asked, asked_count) = (question.pointer(), question.count());
    let answer = numbers[0].pointer_mut();
    unsafe { azunkefogo_unifiable(sig, sig_count, term, term_count, asked, asked_count, answer) }
}

pub fn argument(signature: &Lent, term: &Lent, number: usize, numbers: &mut [Lent]) -> u32 {
    let (sig, sig_count) = (signature.pointer(), signature.count());
    let (bytes, count) = (term.pointer(), term.count());
    let start = numbers[0].pointer_mut();
    let length = numbers[1].pointer_mut();
    unsafe { azunkefogo_argument(sig, sig_count, bytes, count, number, start, length) }
}

pub fn open(tables: &mut Tables, signature: &Lent) -> u32 {
    let (bytes, count) = (signature.pointer(), signature.count());
    with_tables!(azunkefogo_open, pointer_mut, tables, bytes, count)
}

pub fn insert(tables: &mut Tables, term: &Lent, numbers: &mut [Lent]) -> u32 {
    let (bytes, count) = (term.pointer(), term.count());
    let slot = numbers[0].pointer_mut();
    with_tables!(azunkefogo_insert, pointer_mut, tables, bytes, count, slot)
}

pub fn delete(tables: &mut Tables, slot: usize) -> u32 {
    with_tables!(azunkefogo_delete, pointer_mut, tables, slot)
}

pub fn with_key(tables: &mut Tables, key: &Lent, out: &mut Lent, numbers: &mut [Lent]) -> u32 {
    let (bytes, count) = (key.pointer(), key.count());
    let room = out.count();
    let (out, slots) = (out.pointer_mut(), numbers[0].pointer_mut());
    with_tables!(
        azunkefogo_with_key,
        pointer,
        tables,
        bytes,
        count,
        out,
        room,
        slots
    )
}

pub fn retrieve(
    tables: &mut Tables,
    relation: usize,
    question: &Lent,
    out: &mut Lent,
    numbers: &mut [Lent],
) -> u32 {
    let (bytes, count) = (question.pointer(), question.count());
    let room = out.count();
    let out = out.pointer_mut();
    let (first, second) = (numbers[0].pointer_mut(), numbers[1].pointer_mut());
    with_tables!(
        azunkefogo_retrieve,
        pointer,
        tables,
        relation,
        bytes,
        count,
        out,
        room,
        first,
        second
    )
}

pub fn solve(
    tables: &mut Tables,
    slot: usize,
    question: &Lent,
    out: &mut Lent,
    numbers: &mut [Lent],
) -> u32 {
    let (bytes, count) = (question.pointer(), question.count());
    let room = out.count();
    let out = out.pointer_mut();
    let (first, second) = (numbers[0].pointer_mut(), numbers[1].pointer_mut());
    with_tables!(
        azunkefogo_solve,
        pointer,
        tables,
        slot,
        bytes,
        count,
        out,
        room,
        first,
        second
    )
}
