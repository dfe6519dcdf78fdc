//! The cases that docs/SCOPE.md spells out, as tests: `rustc --test` builds them.

#![cfg(test)]

mod generate;
mod invent;
mod log;
mod pairs;
mod random;
mod reference;

use generate::hexadecimal;
use reference::{
    argument, check_key, check_term, first_in_rank, is_answer, is_candidate, Store, ORDER,
};

/// a=0, b=1, f=2, g=3 of docs/SCOPE.md, 'The log program'.
const SIGNATURE: [u8; 4] = [0, 0, 2, 1];

/// The record, in hexadecimal, of one stored term and one question.
fn solved(signature: &[u8], stored: &str, question: &str) -> Result<(usize, String), u32> {
    let mut store = Store::open(signature)?;
    store.insert(&hexadecimal(stored))?;
    let (fields, record) = store.solve(0, &hexadecimal(question), usize::MAX)?;
    let text = record.iter().map(|byte| format!("{byte:02x}")).collect();
    Ok((fields, text))
}

/// Candidate and answer of one relation.
fn related(relation: usize, stored: &str, question: &str) -> (bool, bool) {
    let stored = check_term(&SIGNATURE, &hexadecimal(stored)).expect("a term");
    let question = check_term(&SIGNATURE, &hexadecimal(question)).expect("a term");
    (
        is_candidate(relation, &question, &stored),
        is_answer(relation, &question, &stored),
    )
}

fn record(fields: usize, text: &str) -> Result<(usize, String), u32> {
    Ok((fields, text.replace(' ', "")))
}

#[test]
fn refusals_by_rank() {
    let mut numbers = ORDER.to_vec();
    numbers.sort();
    assert_eq!(numbers, Vec::from_iter(1..=24));
    let given = ORDER.into_iter().filter(|&number| number <= 16);
    assert_eq!(Vec::from_iter(given), Vec::from_iter(1..=16));
    assert_eq!(first_in_rank([15, 8, 4, 21]), Some(21));
    assert_eq!(first_in_rank([13, 24, 16]), Some(24));
    assert_eq!(first_in_rank([]), None);
}

#[test]
fn the_log_of_the_paper() {
    let input = "01 0004 00000201 02 0006 000280008000 02 0006 000200008000
        02 0008 0002000380008000 04 0009 040002800000038000
        05 000a 00010002800000038000 03 0002 0001 02 0004 00030000 03 0002 0007";
    let output = "open ok\ninsert ok 0\ninsert ok 1\ninsert ok 2\nretrieve ok 3 1 1\n\
        solve ok 2 10000680000003000010000480200000\ndelete ok 1\ninsert ok 1\ndelete no 4\n";
    assert_eq!(log::replay(&hexadecimal(input)), output);
}

#[test]
fn the_cases_of_two_terms() {
    let solve = |stored, question| solved(&SIGNATURE, stored, question);
    // P1 to P4.
    assert_eq!(
        related(4, "0002 8000 8000", "0002 8000 0003 8000"),
        (true, false)
    );
    let p2 = record(2, "10000680000003000010000480200000");
    assert_eq!(solve("0002 0000 8000", "0002 8000 0003 8000"), p2);
    assert_eq!(solve("8000", "8000"), record(1, "10 0004 8020 8000"));
    assert_eq!(
        solve("8000", "0003 8000"),
        record(1, "10 0006 8000 0003 8020")
    );
    // P5 to P8.
    assert_eq!(related(2, "0002 8000 8000", "8000"), (true, true));
    assert_eq!(related(3, "0002 8000 8000", "8000"), (false, false));
    assert_eq!(
        related(3, "0002 8000 8000", "0002 0000 0001"),
        (true, false)
    );
    let p7 = record(2, "10 0004 8000 0001 10 0004 8020 0000");
    assert_eq!(solve("0002 0000 8000", "0002 8000 0001"), p7);
    assert_eq!(related(4, "0000", "0001"), (false, false));
    // P12, and a against a.
    let p12 = solve(
        "0002 8000 0002 8000 8001",
        "0002 0002 8000 8001 0002 8001 8000",
    );
    assert_eq!(p12, Err(13));
    assert_eq!(solve("0000", "0000"), record(0, ""));
}

#[test]
fn the_cases_of_one_term() {
    // P9 to P11, and the edges of the term check (docs/SCOPE.md, 'Numbers of refusal').
    let check = |text: &str| check_term(&SIGNATURE, &hexadecimal(text)).err();
    assert_eq!(check("0002 8000"), Some(8));
    assert_eq!(check("0000 0000"), Some(8));
    assert_eq!(check(""), Some(6));
    assert_eq!(check("0000 0004"), Some(7));
    assert_eq!(check_term(&SIGNATURE, &[9; 65]).err(), Some(5));
    assert_eq!(check_term(&SIGNATURE, &[9; 63]).err(), Some(6));
}

#[test]
fn the_size_limit() {
    // a=0, p=1, e=2, h=3; arity 8 gives h one argument more.
    let e = |x: &str| "0002".to_string() + &x.repeat(8);
    for (arity, more, owed) in [(7, "", Ok(5)), (8, "0000", Err(14))] {
        let h = "0003".to_string() + &"8001".repeat(3) + &"8002".repeat(4) + more;
        let stored = format!("0001 8000 {} 8001 8002 {h}", e("8000"));
        let question = format!("0001 {} 8001 {} 8001 8002", e("8000"), e("8001"));
        let outcome = solved(&[0, 5, 8, arity], &stored, &question);
        assert_eq!(outcome.map(|(fields, _)| fields), owed);
    }
}

#[test]
fn arguments_and_keys() {
    let term = hexadecimal("0002 0003 8000 0001");
    assert_eq!(argument(&SIGNATURE, &term, 1), Ok(2..6));
    assert_eq!(argument(&SIGNATURE, &term, 2), Ok(6..8));
    assert_eq!(argument(&SIGNATURE, &term, 0), Err(10));
    assert_eq!(argument(&SIGNATURE, &term, 3), Err(10));
    assert_eq!(argument(&SIGNATURE, &hexadecimal("8000"), 1), Err(10));
    let refused = |text: &str| check_key(&SIGNATURE, &hexadecimal(text)).err();
    assert_eq!(refused("0000"), None);
    assert_eq!(refused("000202 000301 ffff"), None);
    assert_eq!(refused("000203 0000"), Some(9));
    assert_eq!(refused("000001 0000"), Some(9));
    assert_eq!(refused("000200 0000"), Some(9));
    assert_eq!(refused("8000"), Some(9));
    assert_eq!(refused(&("000301".repeat(31) + "ffff")), None);
    assert_eq!(refused(&("000301".repeat(32) + "ffff")), Some(9));
}

#[test]
fn the_ends_of_a_log() {
    let open = "01 0004 00000201";
    let after = |field: &str| log::replay(&hexadecimal(&format!("{open} {field}")));
    let stopped = "open ok\nlog no 16\n";
    for field in [
        "06 0000",
        "02 0003 0000",
        "02 00",
        "01 0001 00",
        "03 0001 00",
        "03 0003 000000",
        "04 0000",
        "05 0001 00",
    ] {
        assert_eq!(after(field), stopped, "{field}");
    }
    assert_eq!(after("02 0000"), "open ok\ninsert no 6\n");
    assert_eq!(after("04 0001 00"), "open ok\nretrieve no 6\n");
    assert_eq!(after("04 0001 05"), "open ok\nretrieve no 3\n");
    assert_eq!(after("05 0002 0000"), "open ok\nsolve no 4\n");
    assert_eq!(after("04 0003 00 0000"), "open ok\nretrieve ok 0 0\n");
    assert_eq!(log::replay(&[]), "");
    assert_eq!(log::replay(&hexadecimal("01 0000 77")), "open no 2\n");
    assert_eq!(log::replay(&hexadecimal("02 0002 0000")), "log no 16\n");
    assert_eq!(log::replay(&hexadecimal("01 00")), "log no 16\n");
    assert_eq!(log::replay(&vec![1; 65_536]), "log no 16\n");
}
