//! The ratios 1, 2, 4 and 5.

use crate::agreement::{agrees, stored};
use crate::library::{unifiable, Tables};
use crate::plain::{Index, Relation, SLOTS};
use crate::random::Random;
use crate::timing::{seconds, side_by_side, Ratio, RUNS};
use crate::workloads::Workload;
use std::hint::black_box;

/// docs/SCOPE.md's names of the relations.
pub const RELATIONS: [&str; 5] = ["equal", "variant", "instance", "generalization", "unifiable"];

type Questions<'a> = [&'a [u8]];
type Listing = [u8; 2 * SLOTS];

pub fn ask_library(tables: &Tables, relation: usize, questions: &Questions, out: &mut Listing) -> f64 {
    out.fill(0);
    seconds(|| {
        for question in questions {
            black_box(tables.retrieve(relation, black_box(question), out).is_ok());
        }
    })
}

pub fn ask_plain(index: &Index, relation: Relation, questions: &Questions, out: &mut Listing) -> f64 {
    out.fill(0);
    seconds(|| {
        for question in questions {
            black_box(index.retrieve(relation, black_box(question), out).is_ok());
        }
    })
}

pub fn scan_plain(index: &Index, questions: &Questions, out: &mut Listing) -> f64 {
    out.fill(0);
    seconds(|| {
        for question in questions {
            black_box(index.scan(black_box(question), out).is_ok());
        }
    })
}

/// The scan with the library's own unifier, called for every stored term.
pub fn scan_library(workload: &Workload, questions: &Questions, out: &mut Listing) -> f64 {
    out.fill(0);
    seconds(|| {
        for question in questions {
            let mut count = 0;
            for (slot, term) in workload.terms.iter().enumerate() {
                if unifiable(&workload.signature, term, black_box(question)) {
                    out[count..count + 2].copy_from_slice(&(slot as u16).to_be_bytes());
                    count += 2;
                }
            }
        }
    })
}

/// The questions for which under a tenth of the slots are candidates.
fn selective<'a>(workload: &'a Workload, tables: &Tables) -> Vec<&'a [u8]> {
    let mut out = [0; 2 * SLOTS];
    let mut total = 0;
    let mut chosen = Vec::new();
    for question in &workload.questions {
        let (candidates, _) = tables.retrieve(4, question, &mut out).expect("a good question");
        if 10 * candidates < SLOTS {
            total += candidates;
            chosen.push(question.as_slice());
        }
    }
    println!(
        "{}: {} of {} questions have under a tenth of the slots as candidates, {:.1} on average",
        workload.name,
        chosen.len(),
        workload.questions.len(),
        total as f64 / chosen.len() as f64
    );
    chosen
}

/// Ratios 1 and 4: the index, and its walk alone, against the scan.
pub fn against_scan(workload: &Workload) -> Vec<Ratio> {
    let (tables, index) = stored(workload);
    let hollow = tables.without_terms();
    let questions = selective(workload, &tables);
    let name = |kind| format!("{kind}/{}", workload.name);
    let mut ratios = [
        Ratio::new(name("index-to-scan"), 0.1),
        Ratio::new(name("index-to-plain-scan"), 0.1),
        Ratio::new(name("walk-to-scan"), 0.03),
        Ratio::new(name("walk-to-plain-scan"), 0.03),
    ];
    let mut outs = [[0; 2 * SLOTS]; 4];
    let [out0, out1, out2, out3] = &mut outs;
    for _ in 0..RUNS {
        let [whole, walk, scan, plain] = side_by_side(&mut [
            &mut || ask_library(&tables, 4, &questions, out0),
            &mut || ask_library(&hollow, 4, &questions, out1),
            &mut || scan_library(workload, &questions, out2),
            &mut || scan_plain(&index, &questions, out3),
        ]);
        let taken = [whole / scan, whole / plain, walk / scan, walk / plain];
        for (ratio, value) in ratios.iter_mut().zip(taken) {
            ratio.values.push(value);
        }
        let each = 1e9 / questions.len() as f64;
        println!("  ns a question: index {:.0}, walk {:.0}, scan {:.0}, plain scan {:.0}", whole * each, walk * each, scan * each, plain * each);
    }
    ratios.into()
}

/// Ratio 2 in the five relations.
pub fn against_plain(workload: &Workload) -> Vec<Ratio> {
    let (tables, index) = stored(workload);
    let questions: Vec<&[u8]> = workload.questions.iter().map(Vec::as_slice).collect();
    let (mut first, mut second) = ([0; 2 * SLOTS], [0; 2 * SLOTS]);
    let mut ratios = Vec::new();
    for (number, relation) in Relation::ALL.into_iter().enumerate() {
        let name = format!("library-to-plain/{}/{}", workload.name, RELATIONS[number]);
        let mut ratio = Ratio::new(name, 1.3);
        for _ in 0..RUNS {
            let [library, plain] = side_by_side(&mut [
                &mut || ask_library(&tables, number, &questions, &mut first),
                &mut || ask_plain(&index, relation, &questions, &mut second),
            ]);
            ratio.values.push(library / plain);
            let each = 1e9 / questions.len() as f64;
            println!("  {} {}: ns a question: library {:.0}, plain {:.0}", workload.name, RELATIONS[number], library * each, plain * each);
        }
        ratios.push(ratio);
    }
    ratios
}

pub fn insert_library(tables: &mut Tables, workload: &Workload) -> f64 {
    tables.clear(&workload.signature);
    seconds(|| {
        for term in &workload.terms {
            black_box(tables.insert(black_box(term)).is_ok());
        }
    })
}

pub fn insert_plain(index: &mut Index, workload: &Workload) -> f64 {
    index.clear();
    seconds(|| {
        for term in &workload.terms {
            black_box(index.insert(black_box(term)).is_ok());
        }
    })
}

/// The order in which the slots are deleted.
pub fn deletions() -> Vec<usize> {
    let mut slots: Vec<usize> = (0..SLOTS).collect();
    Random::new(6).shuffle(&mut slots);
    slots
}

pub fn delete_library(tables: &mut Tables, workload: &Workload, slots: &[usize]) -> f64 {
    insert_library(tables, workload);
    seconds(|| {
        for &slot in slots {
            black_box(tables.delete(black_box(slot)).is_ok());
        }
    })
}

pub fn delete_plain(index: &mut Index, workload: &Workload, slots: &[usize]) -> f64 {
    insert_plain(index, workload);
    seconds(|| {
        for &slot in slots {
            black_box(index.delete(black_box(slot)).is_ok());
        }
    })
}

/// Ratio 2 in insert and delete, from empty to full and back.
pub fn changes_against_plain(workload: &Workload) -> Vec<Ratio> {
    let (mut tables, mut index) = stored(workload);
    let slots = deletions();
    let name = |kind| format!("library-to-plain/{}/{kind}", workload.name);
    let mut inserts = Ratio::new(name("insert"), 1.3);
    let mut deletes = Ratio::new(name("delete"), 1.3);
    for _ in 0..RUNS {
        let [library, plain] = side_by_side(&mut [
            &mut || insert_library(&mut tables, workload),
            &mut || insert_plain(&mut index, workload),
        ]);
        inserts.values.push(library / plain);
        let each = 1e9 / SLOTS as f64;
        println!("  {} insert: ns a term: library {:.0}, plain {:.0}", workload.name, library * each, plain * each);
        let [library, plain] = side_by_side(&mut [
            &mut || delete_library(&mut tables, workload, &slots),
            &mut || delete_plain(&mut index, workload, &slots),
        ]);
        deletes.values.push(library / plain);
        println!("  {} delete: ns a term: library {:.0}, plain {:.0}", workload.name, library * each, plain * each);
    }
    vec![inserts, deletes]
}

/// How many candidates each question of ratio 5 has.
const FIXED: usize = 4;

/// A store of `count` terms, `FIXED` of them candidates, spread evenly.
fn mixed(workload: &Workload, count: usize, candidates: &[&[u8]], others: &[&[u8]]) -> Tables {
    let mut tables = Tables::open(&workload.signature);
    let mut others = others.iter().cycle();
    let mut candidates = candidates.iter();
    for slot in 0..count {
        if slot % (count / FIXED) == 0 {
            let term = candidates.next().expect("as many candidates as places");
            tables.insert(term).expect("room for a candidate");
            continue;
        }
        while tables.insert(others.next().expect("a cycle")).is_err() {}
    }
    tables
}

/// For one question a store of 32 and one of 512 terms, with the same candidates.
fn grown<'a>(workload: &'a Workload, question: &'a [u8]) -> Option<(&'a [u8], Tables, Tables)> {
    let all = workload.terms.iter().chain(&workload.others).map(Vec::as_slice);
    let (candidates, others): (Vec<&[u8]>, Vec<&[u8]>) =
        all.partition(|term| agrees(&workload.signature, question, term));
    if candidates.len() < FIXED || others.len() < SLOTS {
        return None;
    }
    let few = mixed(workload, 32, &candidates, &others);
    Some((question, few, mixed(workload, SLOTS, &candidates, &others)))
}

/// Ratio 5: a retrieval among 512 terms against one among 32, with as many candidates.
pub fn growth(workload: &Workload) -> Ratio {
    let questions = workload.questions.iter().filter_map(|question| grown(workload, question));
    let questions: Vec<_> = questions.take(24).collect();
    let mut ratio = Ratio::new(format!("growth/{}", workload.name), 1.5);
    let (mut first, mut second) = ([0; 2 * SLOTS], [0; 2 * SLOTS]);
    for _ in 0..RUNS {
        let (mut small, mut large) = (0.0, 0.0);
        for (question, few, many) in &questions {
            let repeated = [*question; 40];
            let [less, more] = side_by_side(&mut [
                &mut || ask_library(few, 4, &repeated, &mut first),
                &mut || ask_library(many, 4, &repeated, &mut second),
            ]);
            small += less;
            large += more;
        }
        ratio.values.push(large / small);
        let each = 1e9 / (40 * questions.len()) as f64;
        println!("  {}: {} questions, {FIXED} candidates each: ns a question: {:.0} of 32, {:.0} of 512", workload.name, questions.len(), small * each, large * each);
    }
    ratio
}
