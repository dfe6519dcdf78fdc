//! The examples of docs/MANUAL.md, in its order.

mod hex;

use azunkefogo::{argument, check_term, Index, Refusal, Relation, Slot, MOST_RECORD};
use hex::{bytes, text};

/// a=0, b=1, f=2, g=3.
const SIGNATURE: [u8; 4] = [0, 0, 2, 1];

fn holding(terms: &[&str]) -> Index {
    let mut index = Index::open(&SIGNATURE).expect("a signature");
    for term in terms {
        index.insert(&bytes(term)).expect("a term");
    }
    index
}

#[test]
fn terms() {
    for term in ["0000", "8000", "0002 0000 8000", "0002 0003 8000 0001"] {
        assert_eq!(check_term(&SIGNATURE, &bytes(term)), Ok(()), "{term}");
    }
    let refused = [
        ("0002 8000", Refusal::Shape),
        ("0000 0000", Refusal::Shape),
        ("8020", Refusal::Symbol),
        ("0004", Refusal::Symbol),
        ("0000 0004", Refusal::Symbol),
        ("", Refusal::Odd),
    ];
    for (term, owed) in refused {
        assert_eq!(check_term(&SIGNATURE, &bytes(term)), Err(owed), "{term}");
    }
    let term = bytes("0002 0003 8000 0001");
    assert_eq!(argument(&SIGNATURE, &term, 1), Ok(&term[2..6]));
    assert_eq!(argument(&SIGNATURE, &term, 2), Ok(&term[6..8]));
}

#[test]
fn listings() {
    let mut index = holding(&[]);
    for k in 0..301 {
        let term = if k == 1 || k == 300 { "0001" } else { "0000" };
        index.insert(&bytes(term)).expect("a term");
    }
    let mut buffer = [0; 8];
    let listing = index
        .with_key_into(&bytes("0001"), &mut buffer)
        .expect("a key");
    assert_eq!(text(listing.bytes()), "0001012c");
}

#[test]
fn relations() {
    let index = holding(&[
        "0002 8000 8000",
        "0002 0000 8000",
        "0002 8000 8001",
        "0002 0000 0001",
        "0003 8000",
    ]);
    let table: [(Relation, &str, usize, &[u16]); 6] = [
        (Relation::Equal, "0002 8000 8001", 2, &[2]),
        (Relation::Variant, "0002 8000 8001", 2, &[0, 2]),
        (Relation::Variant, "0002 8000 8000", 2, &[0]),
        (Relation::Instance, "0002 8000 8000", 4, &[0]),
        (Relation::Generalization, "0002 0000 0001", 4, &[1, 2, 3]),
        (Relation::Unifiable, "0002 8000 0003 8000", 3, &[1, 2]),
    ];
    for (relation, question, candidates, answers) in table {
        let found = index
            .retrieve(relation, &bytes(question))
            .expect("a question");
        assert_eq!(found.candidates(), candidates, "{relation:?} {question}");
        assert!(found.iter().map(Slot::number).eq(answers.iter().copied()));
    }
    // f(x1, x0) is not equal to f(x0, x1), but a variant
    let swapped = bytes("0002 8001 8000");
    let equal = index
        .retrieve(Relation::Equal, &swapped)
        .expect("a question");
    let variant = index
        .retrieve(Relation::Variant, &swapped)
        .expect("a question");
    assert!(equal.answers().is_empty());
    assert!(variant.answers().contains(&Slot::from(2)));
}

#[test]
fn keys() {
    let index = holding(&["0002 0003 8000 0001"]);
    for key in ["0002", "000201 0003", "000201 000301 ffff", "000202 0001"] {
        assert_eq!(
            index.with_key(&bytes(key)),
            Ok(vec![Slot::from(0)]),
            "{key}"
        );
    }
    for key in ["000203 0000", "000001 0000"] {
        assert_eq!(index.with_key(&bytes(key)), Err(Refusal::Key), "{key}");
    }
}

/// Stored term, question and record.
const RECORDS: [[&str; 3]; 6] = [
    [
        "0002 0000 8000",
        "0002 8000 0003 8000",
        "10 0006 8000 0003 0000 10 0004 8020 0000",
    ],
    [
        "0002 8000 8001",
        "0002 8000 0003 8000",
        "10 0006 8001 0003 8000 10 0004 8020 8000",
    ],
    [
        "0002 8000 8000",
        "0002 0003 8003 0003 8001",
        "10 0006 8000 0003 8021 10 0004 8023 8021",
    ],
    ["8000", "8000", "10 0004 8020 8000"],
    ["8000", "0003 8000", "10 0006 8000 0003 8020"],
    ["0000", "0000", ""],
];

#[test]
fn records() {
    for [stored, question, record] in RECORDS {
        let index = holding(&[stored]);
        let unifier = index
            .solve(Slot::from(0), &bytes(question))
            .expect("a unifier");
        assert_eq!(
            text(unifier.bytes()),
            text(&bytes(record)),
            "{stored} {question}"
        );
        assert_eq!(unifier.bindings().count(), unifier.fields());
    }
    assert_eq!(MOST_RECORD, 262_464);
}

/// A record longer than the buffer of the log program, where it prints `solve no 15`.
#[test]
fn a_long_record() {
    // p=1 and e=2 of eight arguments, t=3 of three, r=4 of seven
    let e = |x: &str| "0002".to_string() + &x.repeat(8);
    let others: String = (6..13).map(|v| format!("80{v:02x}")).collect();
    let stored = format!(
        "0001 8000 {} 8002 0003 8002 8002 8002 8003 8004 8005 0004 {others}",
        e("8000")
    );
    let tail = "8002".repeat(4) + "0004" + &"8002".repeat(7);
    let question = format!("0001 {} 8001 {} {tail}", e("8000"), e("8001"));
    let mut index = Index::open(&[0, 8, 8, 3, 7]).expect("a signature");
    let slot = index.insert(&bytes(&stored)).expect("a term");
    let unifier = index.solve(slot, &bytes(&question)).expect("a unifier");
    assert!(unifier.bytes().len() > 32_768);
    assert_eq!(unifier.bindings().count(), unifier.fields());
    let mut log = [0; 32_768];
    let cramped = index.solve_into(slot, &bytes(&question), &mut log).err();
    assert_eq!(cramped, Some(Refusal::Room));
}

#[test]
fn refusals() {
    let term = bytes("0002 0003 8000 0001");
    assert_eq!(check_term(&SIGNATURE, &[0; 65]), Err(Refusal::Size));
    assert_eq!(check_term(&SIGNATURE, &[0xFF; 63]), Err(Refusal::Odd));
    assert_eq!(argument(&SIGNATURE, &term, 3), Err(Refusal::Argument));
    assert_eq!(argument(&SIGNATURE, &term, 0), Err(Refusal::Argument));
    assert_eq!(
        argument(&SIGNATURE, &bytes("8000"), 1),
        Err(Refusal::Argument)
    );
    let index = holding(&["0002 8000 8000", "8000"]);
    assert_eq!(index.solve(Slot::from(9), &[]), Err(Refusal::Slot));
    let none = index.solve(Slot::from(0), &bytes("0002 0000 0001"));
    assert_eq!(none, Err(Refusal::Nothing));
    let cramped = index
        .solve_into(Slot::from(1), &bytes("0003 8000"), &mut [0; 8])
        .err();
    assert_eq!(cramped, Some(Refusal::Room));
    let whole = index
        .solve(Slot::from(1), &bytes("0003 8000"))
        .expect("a unifier");
    assert_eq!(whole.bytes().len(), 9);
}

/// A signature that opening refuses is taken as it is by the calls that are given one.
#[test]
fn an_unchecked_signature() {
    let nine = bytes(&("0000".to_string() + &"8000".repeat(9)));
    assert_eq!(check_term(&[9], &nine), Ok(()));
    assert_eq!(argument(&[9], &nine, 9), Ok(&nine[18..20]));
}
