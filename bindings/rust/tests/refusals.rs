//! Every refusal that can be met, its neighbours, and that a refused call changes nothing.

mod hex;

use azunkefogo::{argument, check_signature, check_term, Index, Refusal, Relation, Slot};
use hex::bytes;

/// a=0, b=1, f=2, g=3.
const SIGNATURE: [u8; 4] = [0, 0, 2, 1];

fn opened() -> Index {
    Index::open(&SIGNATURE).expect("a signature")
}

#[test]
fn signatures() {
    assert_eq!(check_signature(&[8; 256]), Ok(()));
    for refused in [&[][..], &[0; 257], &[0, 9]] {
        assert_eq!(check_signature(refused), Err(Refusal::Signature));
        assert_eq!(Index::open(refused).err(), Some(Refusal::Signature));
    }
}

#[test]
fn terms() {
    let check = |term: &[u8]| check_term(&SIGNATURE, term).err();
    assert_eq!(check(&[0xFF; 65]), Some(Refusal::Size));
    assert_eq!(check(&[0xFF; 63]), Some(Refusal::Odd));
    assert_eq!(check(&[]), Some(Refusal::Odd));
    // an item after the term's end is looked at too
    assert_eq!(check(&bytes("0000 0004")), Some(Refusal::Symbol));
    assert_eq!(check(&bytes("8020")), Some(Refusal::Symbol));
    assert_eq!(check(&bytes("801f")), None);
    assert_eq!(check(&bytes("0002 0000")), Some(Refusal::Shape));
    // 31 times g and a variable: 32 items, 64 bytes
    assert_eq!(check(&bytes(&("0003".repeat(31) + "8000"))), None);
}

#[test]
fn arguments() {
    let term = bytes("0002 0003 8000 0001");
    assert_eq!(argument(&SIGNATURE, &term, 1), Ok(&term[2..6]));
    assert_eq!(argument(&SIGNATURE, &term, 2), Ok(&term[6..8]));
    for i in [0, 3, usize::MAX] {
        assert_eq!(argument(&SIGNATURE, &term, i), Err(Refusal::Argument));
    }
    assert_eq!(
        argument(&SIGNATURE, &bytes("8000"), 1),
        Err(Refusal::Argument)
    );
    assert_eq!(argument(&SIGNATURE, &bytes("0002"), 9), Err(Refusal::Shape));
}

#[test]
fn slots() {
    let mut index = opened();
    let slot = index.insert(&bytes("0000")).expect("a term");
    for other in [1, 511, 512, u16::MAX] {
        assert_eq!(index.delete(Slot::from(other)), Err(Refusal::Slot));
        // 4 comes before the question is looked at
        assert_eq!(index.solve(Slot::from(other), &[]), Err(Refusal::Slot));
    }
    assert_eq!(index.delete(slot), Ok(()));
}

#[test]
fn keys() {
    let mut index = opened();
    let slot = index.insert(&bytes("0002 0003 8000 0001")).expect("a term");
    let ask = |key: &str| index.with_key(&bytes(key));
    for held in ["0002", "000201 0003", "000201 000301 ffff", "000202 0001"] {
        assert_eq!(ask(held), Ok(vec![slot]), "{held}");
    }
    assert_eq!(ask("ffff"), Ok(vec![]));
    assert_eq!(ask(&("000301".repeat(31) + "ffff")), Ok(vec![]));
    let too_long = "000301".repeat(32) + "ffff";
    let refused = [
        "",
        "00",
        "000203 0000",
        "000001 0000",
        "000200 0000",
        "8000",
        "0004",
        &too_long,
    ];
    for key in refused {
        assert_eq!(ask(key), Err(Refusal::Key), "{key}");
    }
}

#[test]
fn cramped_buffers_stay_as_they_were() {
    let mut index = opened();
    let slot = index.insert(&bytes("8000")).expect("a term");
    let question = bytes("0003 8000");
    let mut buffer = [0xA5; 8];
    let cramped = index.solve_into(slot, &question, &mut buffer);
    assert_eq!(cramped, Err(Refusal::Room));
    let listed = index.retrieve_into(Relation::Unifiable, &question, &mut buffer[..1]);
    assert_eq!(listed, Err(Refusal::Room));
    assert_eq!(
        index.with_key_into(&bytes("ffff"), &mut buffer[..1]),
        Err(Refusal::Room)
    );
    assert_eq!(buffer, [0xA5; 8]);
    // exactly enough, and no byte beyond
    let mut buffer = [0xA5; 10];
    let record = index
        .solve_into(slot, &question, &mut buffer)
        .expect("room");
    assert_eq!(record.bytes(), bytes("10 0006 8000 0003 8020"));
    assert_eq!(buffer[9], 0xA5);
}

#[test]
fn refused_inserts_change_nothing() {
    let mut index = opened();
    index.insert(&bytes("0000")).expect("a term");
    for term in ["", "0004", "0002 0000", "0000 0000"] {
        assert!(index.insert(&bytes(term)).is_err());
    }
    let found = index
        .retrieve(Relation::Unifiable, &bytes("8000"))
        .expect("a question");
    assert_eq!(found.answers(), [Slot::from(0)]);
    assert_eq!(index.insert(&bytes("0001")), Ok(Slot::from(1)));
}

#[test]
fn names_and_numbers() {
    for number in 1..=16 {
        let refusal = Refusal::from_number(number).expect("a refusal");
        assert_eq!(refusal.number(), number);
        let shown = refusal.to_string();
        assert!(
            shown.starts_with(&format!("{} ({number}): ", refusal.name())),
            "{shown}"
        );
    }
    assert_eq!(Refusal::from_number(17), None);
}
