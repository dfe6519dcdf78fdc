//! Parameters are passed to the library by their places: each of these calls would answer
//! something else if two neighbours of one kind were exchanged. The exchanges that change
//! nothing are named in bindings/c/check.c.

mod hex;

use azunkefogo::{argument, check_term, unifiable, Index, Relation, Slot};
use hex::bytes;

/// a=0, b=1, f=2, g=3.
const SIGNATURE: [u8; 4] = [0, 0, 2, 1];

#[test]
fn without_tables() {
    assert_eq!(check_term(&SIGNATURE, &bytes("8000")), Ok(()));
    let term = bytes("0002 0003 8000 0001");
    assert_eq!(argument(&SIGNATURE, &term, 2), Ok(&term[6..8]));
    assert_eq!(unifiable(&SIGNATURE, &bytes("0000"), &bytes("8000")), Ok(true));
}

#[test]
fn numbers_told() {
    let mut index = Index::open(&SIGNATURE).expect("a signature");
    index.insert(&bytes("0002 0003 8000 0001")).expect("a term");
    assert_eq!(index.insert(&bytes("0000")), Ok(Slot::from(1)));
    // one candidate, no answer: g(x0) and b are no instance of one variable
    let found = index
        .retrieve(Relation::Instance, &bytes("0002 8000 8000"))
        .expect("a question");
    assert_eq!((found.candidates(), found.answers()), (1, &[][..]));
    // y0 is a: one field of seven bytes
    let mut buffer = [0; 32];
    let record = index
        .solve_into(Slot::from(1), &bytes("8000"), &mut buffer)
        .expect("a unifier");
    assert_eq!((record.fields(), record.bytes().len()), (1, 7));
    assert_eq!(index.with_key(&bytes("0000")), Ok(vec![Slot::from(1)]));
    assert_eq!(index.delete(Slot::from(1)), Ok(()));
}

/// 31 symbols of one argument and a variable: 32 keys, all behind the first symbol.
fn chain(first: u8) -> Vec<u8> {
    [vec![0, first], [0, 0].repeat(30), vec![0x80, 0]].concat()
}

/// The key of the second symbol of that term.
fn key(first: u8) -> [u8; 5] {
    [0, first, 1, 0, 0]
}

/// 128 terms of 32 keys: each of the four tables of sets holds the keys of 32 terms.
#[test]
fn tables_of_sets() {
    let mut index = Index::open(&[1; 128]).expect("a signature");
    for first in 0..128 {
        assert_eq!(index.insert(&chain(first)), Ok(Slot::from(u16::from(first))));
    }
    for first in 0..128 {
        let slot = Slot::from(u16::from(first));
        assert_eq!(index.with_key(&key(first)), Ok(vec![slot]));
        let found = index.retrieve(Relation::Equal, &chain(first)).expect("a question");
        assert_eq!(found.answers(), [slot]);
    }
    // one term for each table, deleted, and the next one's term in its slot
    for first in [5, 40, 70, 100] {
        let slot = Slot::from(u16::from(first));
        assert_eq!(index.delete(slot), Ok(()));
        assert_eq!(index.insert(&chain(first + 1)), Ok(slot));
        assert_eq!(index.with_key(&key(first)), Ok(vec![]));
        let next = Slot::from(u16::from(first) + 1);
        assert_eq!(index.with_key(&key(first + 1)), Ok(vec![slot, next]));
    }
}
