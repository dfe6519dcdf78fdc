//! The cases that both sides of each edge are known by: P1 to P12, as one table, and the value
//! of exactly as many items as there may be.

mod hex;

use azunkefogo::{check_term, Index, Refusal, Relation};
use hex::{bytes, text};

/// a=0, b=1, f=2, g=3.
const SIGNATURE: [u8; 4] = [0, 0, 2, 1];

const RELATIONS: [Relation; 5] = [
    Relation::Equal,
    Relation::Variant,
    Relation::Instance,
    Relation::Generalization,
    Relation::Unifiable,
];

/// One stored term and one question: for each relation `-`, `c` for a candidate that is no
/// answer, or `a` for an answer; then the record, or nothing where there is no unifier.
struct Case {
    name: &'static str,
    stored: &'static str,
    question: &'static str,
    found: &'static str,
    record: Option<&'static str>,
}

#[rustfmt::skip]
const CASES: [Case; 9] = [
    Case { name: "P1", stored: "0002 8000 8000", question: "0002 8000 0003 8000", found: "---cc", record: None },
    Case { name: "P2", stored: "0002 0000 8000", question: "0002 8000 0003 8000", found: "----a",
           record: Some("10 0006 8000 0003 0000 10 0004 8020 0000") },
    Case { name: "P3", stored: "8000", question: "8000", found: "aaaaa", record: Some("10 0004 8020 8000") },
    Case { name: "P4", stored: "8000", question: "0003 8000", found: "---aa", record: Some("10 0006 8000 0003 8020") },
    Case { name: "P5", stored: "0002 8000 8000", question: "8000", found: "--a-a",
           record: Some("10 0008 8020 0002 8000 8000") },
    Case { name: "P6", stored: "0002 8000 8000", question: "0002 0000 0001", found: "---cc", record: None },
    Case { name: "P7", stored: "0002 0000 8000", question: "0002 8000 0001", found: "----a",
           record: Some("10 0004 8000 0001 10 0004 8020 0000") },
    Case { name: "P8", stored: "0000", question: "0001", found: "-----", record: None },
    Case { name: "P12", stored: "0002 8000 0002 8000 8001", question: "0002 0002 8000 8001 0002 8001 8000",
           found: "---cc", record: None },
];

/// The letter of one relation.
fn found(index: &Index, relation: Relation, question: &[u8]) -> char {
    let retrieval = index.retrieve(relation, question).expect("a question");
    match (retrieval.candidates(), retrieval.answers().len()) {
        (0, 0) => '-',
        (1, 0) => 'c',
        (1, 1) => 'a',
        other => panic!("{other:?} with one stored term"),
    }
}

#[test]
fn p1_to_p8_and_p12() {
    for case in CASES {
        let mut index = Index::open(&SIGNATURE).expect("a signature");
        let slot = index.insert(&bytes(case.stored)).expect("a term");
        let question = bytes(case.question);
        let letters: String = RELATIONS
            .map(|r| found(&index, r, &question))
            .iter()
            .collect();
        assert_eq!(letters, case.found, "{}", case.name);
        let solved = index.solve(slot, &question);
        let owed = case.record.map(|r| text(&bytes(r))).ok_or(Refusal::Nothing);
        assert_eq!(solved.map(|u| text(u.bytes())), owed, "{}", case.name);
    }
}

#[test]
fn p9_to_p11() {
    let table = [
        ("P9", "0002 8000", Refusal::Shape),
        ("P10", "0000 0000", Refusal::Shape),
        ("P11", "", Refusal::Odd),
    ];
    for (name, term, owed) in table {
        let term = bytes(term);
        let mut index = Index::open(&SIGNATURE).expect("a signature");
        assert_eq!(check_term(&SIGNATURE, &term), Err(owed), "{name}");
        assert_eq!(index.insert(&term), Err(owed), "{name}");
        let retrieved = index.retrieve(Relation::Unifiable, &term);
        assert_eq!(retrieved, Err(owed), "{name}");
    }
}

/// The value of question variable 2 has 2,048 items; one argument more makes it too long.
#[test]
fn the_longest_value() {
    let e = |x: &str| "0002".to_string() + &x.repeat(8);
    for (arity, more) in [(7, ""), (8, "0000")] {
        let h = "0003".to_string() + &"8001".repeat(3) + &"8002".repeat(4) + more;
        let stored = format!("0001 8000 {} 8001 8002 {h}", e("8000"));
        let question = format!("0001 {} 8001 {} 8001 8002", e("8000"), e("8001"));
        let mut index = Index::open(&[0, 5, 8, arity]).expect("a signature");
        let slot = index.insert(&bytes(&stored)).expect("a term");
        let solved = index.solve(slot, &bytes(&question));
        if arity == 8 {
            assert_eq!(solved, Err(Refusal::Long));
            continue;
        }
        let unifier = solved.expect("a unifier");
        let last = unifier.bindings().last().expect("a binding");
        assert_eq!(last.variable().to_string(), "y2");
        assert_eq!(last.items().len(), 2048);
    }
}
