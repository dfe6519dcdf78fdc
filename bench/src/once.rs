//! One pass of one side over one workload, to count instructions: `measure once SIDE WORKLOAD OPERATION`.

use crate::agreement::stored;
use crate::plain::{Relation, SLOTS};
use crate::ratios::*;
use crate::workloads::Workload;

/// What is counted: callgrind collects within this function only.
#[no_mangle]
#[inline(never)]
pub fn counted_pass(work: &mut dyn FnMut()) {
    work();
}

fn ask(side: &str, workload: &Workload, relation: usize) {
    let (tables, index) = stored(workload);
    let hollow = tables.without_terms();
    let questions: Vec<&[u8]> = workload.questions.iter().map(Vec::as_slice).collect();
    let out = &mut [0; 2 * SLOTS];
    counted_pass(&mut || {
        match side {
            "library" => ask_library(&tables, relation, &questions, out),
            "walk" => ask_library(&hollow, relation, &questions, out),
            "plain" => ask_plain(&index, Relation::ALL[relation], &questions, out),
            "scan" => scan_library(workload, &questions, out),
            _ => scan_plain(&index, &questions, out),
        };
    });
}

fn change(side: &str, workload: &Workload, deleting: bool) {
    let (mut tables, mut index) = stored(workload);
    let slots = deletions();
    if !deleting {
        tables.clear(&workload.signature);
        index.clear();
    }
    counted_pass(&mut || match (side, deleting) {
        ("library", false) => workload.terms.iter().for_each(|term| {
            std::hint::black_box(tables.insert(term).is_ok());
        }),
        ("library", true) => slots.iter().for_each(|&slot| {
            std::hint::black_box(tables.delete(slot).is_ok());
        }),
        (_, false) => workload.terms.iter().for_each(|term| {
            std::hint::black_box(index.insert(term).is_ok());
        }),
        (_, true) => slots.iter().for_each(|&slot| {
            std::hint::black_box(index.delete(slot).is_ok());
        }),
    });
}

/// The first 64 questions, each solved against every eighth slot.
fn solve(workload: &Workload) {
    let (tables, _) = stored(workload);
    let out = &mut [0; 32_768];
    counted_pass(&mut || {
        for question in workload.questions.iter().take(64) {
            for slot in (0..SLOTS).step_by(8) {
                std::hint::black_box(tables.solve(slot, question, out).is_ok());
            }
        }
    });
}

/// One pass of the named side.
pub fn run(side: &str, workload: &Workload, operation: &str) {
    if operation == "solve" {
        return solve(workload);
    }
    match RELATIONS.iter().position(|&name| name == operation) {
        Some(relation) => ask(side, workload, relation),
        None => change(side, workload, operation == "delete"),
    }
}
