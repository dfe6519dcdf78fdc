//! A store that is filled to its limits, and emptied again.

mod hex;

use azunkefogo::{Index, Refusal, Relation, Slot};
use hex::bytes;

/// Term k of 512: f(s, t) with constants s and t of two letters of sixteen and 32.
fn pair(k: usize) -> Vec<u8> {
    vec![0, 0, 0, (1 + k / 32) as u8, 0, (17 + k % 32) as u8]
}

/// Symbol 0 is f of two arguments, 1 to 48 are constants.
fn pairs() -> Index {
    let mut signature = [0; 49];
    signature[0] = 2;
    let mut index = Index::open(&signature).expect("a signature");
    for k in 0..512 {
        assert_eq!(index.insert(&pair(k)), Ok(Slot::from(k as u16)));
    }
    index
}

#[test]
fn a_store_of_512() {
    let mut index = pairs();
    assert_eq!(index.insert(&pair(0)), Err(Refusal::Full));
    let all = index
        .retrieve(Relation::Instance, &bytes("8000"))
        .expect("a question");
    assert_eq!((all.candidates(), all.answers().len()), (512, 512));
    // f(y0, constant 17): one of each group of 32
    let some = index
        .retrieve(Relation::Unifiable, &bytes("0000 8000 0011"))
        .expect("a question");
    assert_eq!(some.candidates(), 16);
    assert!(some.iter().eq((0..16).map(|group| Slot::from(32 * group))));
    for k in 0..512 {
        let found = index
            .retrieve(Relation::Equal, &pair(k))
            .expect("a question");
        assert_eq!(found.answers(), [Slot::from(k as u16)]);
    }
    // freed slots are given again, the smallest first
    index.delete(Slot::from(300)).expect("in use");
    index.delete(Slot::from(7)).expect("in use");
    assert_eq!(index.insert(&pair(300)), Ok(Slot::from(7)));
    assert_eq!(index.insert(&pair(7)), Ok(Slot::from(300)));
    assert_eq!(index.insert(&pair(7)), Err(Refusal::Full));
}

#[test]
fn emptied_and_filled_again() {
    let mut index = pairs();
    for k in 0..512 {
        assert_eq!(index.delete(Slot::from(k)), Ok(()));
    }
    let left = index
        .retrieve(Relation::Unifiable, &bytes("8000"))
        .expect("a question");
    assert_eq!((left.candidates(), left.answers().len()), (0, 0));
    assert_eq!(index.with_key(&bytes("0000")), Ok(vec![]));
    assert_eq!(index.insert(&pair(5)), Ok(Slot::from(0)));
}

/// 31 symbols of one argument and a variable: 32 keys, all behind the first symbol.
fn chain(first: u8) -> Vec<u8> {
    [vec![0, first], [0, 0].repeat(30), vec![0x80, 0]].concat()
}

#[test]
fn exactly_4096_keys() {
    let mut index = Index::open(&[1; 256]).expect("a signature");
    for first in 0..128 {
        index.insert(&chain(first)).expect("room for its keys");
    }
    assert_eq!(index.insert(&chain(128)), Err(Refusal::Keys));
    // a term without new keys goes in
    assert_eq!(index.insert(&chain(5)), Ok(Slot::from(128)));
    // its keys stay while another term has them
    index.delete(Slot::from(5)).expect("in use");
    assert_eq!(index.insert(&chain(128)), Err(Refusal::Keys));
    index.delete(Slot::from(128)).expect("in use");
    assert_eq!(index.insert(&chain(128)), Ok(Slot::from(5)));
}

#[test]
fn a_copy_goes_its_own_way() {
    let mut index = Index::open(&[0]).expect("a signature");
    let slot = index.insert(&bytes("0000")).expect("a term");
    let copy = index.clone();
    index.delete(slot).expect("in use");
    assert_eq!(copy.with_key(&bytes("0000")), Ok(vec![slot]));
}

#[test]
fn threads_may_ask_together() {
    let index = pairs();
    std::thread::scope(|scope| {
        for group in 0..4 {
            let index = &index;
            scope.spawn(move || {
                for k in (group..512).step_by(4) {
                    let found = index
                        .retrieve(Relation::Variant, &pair(k))
                        .expect("a question");
                    assert_eq!(found.answers(), [Slot::from(k as u16)]);
                }
            });
        }
    });
}
