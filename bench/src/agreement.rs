//! Before any measurement: the library, the plain program and both scans give the same answers.

use crate::items::{items, VARIABLE};
use crate::plain::{Index, Relation, SLOTS};
use crate::library::{unifiable, Tables};
use crate::workloads::Workload;

/// The workload stored in both, term by term.
pub fn stored(workload: &Workload) -> (Tables, Index) {
    let mut tables = Tables::open(&workload.signature);
    let mut index = Index::open(&workload.signature);
    for (slot, term) in workload.terms.iter().enumerate() {
        assert_eq!(tables.insert(term), Ok(slot));
        assert_eq!(index.insert(term), Ok(slot));
    }
    (tables, index)
}

/// Whether a stored term is a candidate for the question in relation 4, by docs/SCOPE.md's table.
pub fn agrees(signature: &[u8], question: &[u8], term: &[u8]) -> bool {
    let asked: Vec<u16> = items(question).collect();
    let stored: Vec<u16> = items(term).collect();
    let (mut left, mut right) = (0, 0);
    while left < asked.len() {
        if asked[left] >= VARIABLE || stored[right] >= VARIABLE {
            left = crate::items::end_of(signature, &asked, left);
            right = crate::items::end_of(signature, &stored, right);
        } else if asked[left] == stored[right] {
            (left, right) = (left + 1, right + 1);
        } else {
            return false;
        }
    }
    true
}

/// One question in all relations, and both scans.
fn compare(workload: &Workload, tables: &Tables, index: &Index, question: &[u8]) {
    let (mut first, mut second) = ([0; 2 * SLOTS], [0; 2 * SLOTS]);
    let mut answers = 0;
    for (number, relation) in Relation::ALL.into_iter().enumerate() {
        let left = tables.retrieve(number, question, &mut first);
        let right = index.retrieve(relation, question, &mut second);
        let right = right.map_err(|refusal| refusal as u32);
        assert_eq!(left, right, "{}: relation {number}", workload.name);
        assert_eq!(first, second, "{}: relation {number}", workload.name);
        answers = left.expect("a good question").1;
    }
    let expected = workload.terms.iter().filter(|term| agrees(&workload.signature, question, term));
    let (candidates, _) = tables.retrieve(4, question, &mut first).expect("a good question");
    assert_eq!(candidates, expected.count());
    assert_eq!(index.scan(question, &mut second), Ok(answers));
    assert_eq!(first, second, "{}: the scan", workload.name);
    let unify = |term: &&Vec<u8>| unifiable(&workload.signature, term, question);
    assert_eq!(workload.terms.iter().filter(unify).count(), answers, "{}: the pairs", workload.name);
    let hollow = tables.without_terms().retrieve(4, question, &mut first);
    assert_eq!(hollow, Ok((candidates, 0)));
}

/// All questions, on the whole store and with half of it deleted again.
pub fn check(workload: &Workload) {
    let (mut tables, mut index) = stored(workload);
    for question in &workload.questions {
        compare(workload, &tables, &index, question);
    }
    for slot in (0..SLOTS).step_by(2) {
        assert_eq!(tables.delete(slot), Ok(()));
        assert_eq!(index.delete(slot), Ok(()));
    }
    for (number, term) in workload.others.iter().enumerate() {
        let relation = Relation::ALL[number % 5];
        let (mut first, mut second) = ([0; 2 * SLOTS], [0; 2 * SLOTS]);
        let left = tables.retrieve(number % 5, term, &mut first);
        let right = index.retrieve(relation, term, &mut second);
        assert_eq!(left, right.map_err(|refusal| refusal as u32));
        assert_eq!(first, second);
        let left = tables.insert(term);
        let right = index.insert(term).map_err(|refusal| refusal as u32);
        assert_eq!(left, right, "{}: insert", workload.name);
    }
}
