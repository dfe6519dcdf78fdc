//! The two plots: times of relation 4 retrievals against the stored terms and against the share of candidates.

use crate::agreement::agrees;
use crate::drawing::{Line, Plot};
use crate::library::Tables;
use crate::plain::{Index, SLOTS};
use crate::ratios::{ask_library, scan_plain};
use crate::timing::side_by_side;
use crate::workloads::Workload;
use std::fs;

/// The workload that the plots show.
const SHOWN: &str = "lemma";

/// How many questions the plot of shares has, and how often each is asked in a turn.
const QUESTIONS: usize = 16;
const REPEATED: usize = 8;

/// How often each plot's points are measured all over; the least counts.
const ROUNDS: usize = 3;

/// The nanoseconds a question of the index and of the scan.
fn times(tables: &Tables, index: &Index, questions: &[&[u8]]) -> [f64; 2] {
    let (mut first, mut second) = ([0; 2 * SLOTS], [0; 2 * SLOTS]);
    let taken = side_by_side(&mut [
        &mut || ask_library(tables, 4, questions, &mut first),
        &mut || scan_plain(index, questions, &mut second),
    ]);
    taken.map(|seconds| seconds * 1e9 / questions.len() as f64)
}

fn lines(rows: &[(f64, [f64; 2])]) -> Vec<Line> {
    let names = [("index", "#0b6fb8"), ("scan", "#c2410c")];
    let line = |(side, (name, colour))| {
        let points = rows.iter().map(|&(place, times): &(f64, [f64; 2])| (place, times[side]));
        Line { name, colour, points: points.collect() }
    };
    names.into_iter().enumerate().map(line).collect()
}

/// A store of these terms in both, as far as there is room.
fn store<'a>(signature: &[u8], terms: impl Iterator<Item = &'a [u8]>) -> (Tables, Index) {
    let mut tables = Tables::open(signature);
    let mut index = Index::open(signature);
    for term in terms {
        assert_eq!(tables.insert(term).is_ok(), index.insert(term).is_ok());
    }
    (tables, index)
}

/// For each count the least times of all rounds, at its place from 0 to 1.
fn least(name: &str, counts: &[usize], measure: impl Fn(usize) -> [f64; 2]) -> Vec<(f64, [f64; 2])> {
    let mut rows = vec![[f64::INFINITY; 2]; counts.len()];
    for _ in 0..ROUNDS {
        for (row, &count) in rows.iter_mut().zip(counts) {
            let taken = measure(count);
            *row = std::array::from_fn(|side| row[side].min(taken[side]));
        }
    }
    for (row, count) in rows.iter().zip(counts) {
        println!("  {count} {name}: ns a question: index {:.0}, scan {:.0}", row[0], row[1]);
    }
    let places = counts.iter().map(|&count| count as f64 / SLOTS as f64);
    places.zip(rows).collect()
}

fn by_stored(workload: &Workload) -> Plot {
    let questions: Vec<&[u8]> = workload.questions.iter().map(Vec::as_slice).collect();
    let rows = least("stored", &[16, 32, 64, 128, 192, 256, 320, 384, 448, 512], |count| {
        let terms = workload.terms.iter().take(count).map(Vec::as_slice);
        let (tables, index) = store(&workload.signature, terms);
        times(&tables, &index, &questions)
    });
    let marks = (0..=8).map(|eighth| (f64::from(eighth) / 8.0, (64 * eighth).to_string()));
    Plot {
        title: format!("Unifiable terms, {} workload: time by stored terms", workload.name),
        below: "stored terms",
        marks: marks.collect(),
        lines: lines(&rows),
    }
}

/// For a question a full store of which `count` terms are candidates.
fn shared(workload: &Workload, question: &[u8], count: usize) -> Option<(Tables, Index)> {
    let all = workload.terms.iter().chain(&workload.others).map(Vec::as_slice);
    let (candidates, others): (Vec<&[u8]>, Vec<&[u8]>) =
        all.partition(|term| agrees(&workload.signature, question, term));
    if candidates.len() < 8 || others.is_empty() {
        return None;
    }
    let chosen = candidates.into_iter().cycle().take(count);
    let rest = others.into_iter().take(SLOTS).cycle().take(SLOTS - count);
    Some(store(&workload.signature, chosen.chain(rest)))
}

/// The average over the questions, each with its own store.
fn share_times(workload: &Workload, count: usize) -> [f64; 2] {
    let stores = workload.questions.iter().filter_map(|question| {
        let (tables, index) = shared(workload, question, count)?;
        Some((question.as_slice(), tables, index))
    });
    let mut total = [0.0; 2];
    for (question, tables, index) in stores.take(QUESTIONS) {
        let taken = times(&tables, &index, &[question; REPEATED]);
        total = std::array::from_fn(|side| total[side] + taken[side] / QUESTIONS as f64);
    }
    total
}

fn by_share(workload: &Workload) -> Plot {
    let counts = [0, 8, 26, 51, 102, 154, 205, 256, 307, 358, 410, 461, 512];
    let rows = least("candidates", &counts, |count| share_times(workload, count));
    let marks = (0..=10).map(|tenth| (f64::from(tenth) / 10.0, format!("{} %", 10 * tenth)));
    Plot {
        title: format!("Unifiable terms, {} workload, 512 stored: time by candidates", workload.name),
        below: "share of the stored terms that are candidates",
        marks: marks.collect(),
        lines: lines(&rows),
    }
}

/// Writes both plots.
pub fn draw(workloads: &[Workload]) {
    let shown = workloads.iter().find(|workload| workload.name == SHOWN).expect("the workload");
    for (name, plot) in [("time-by-stored", by_stored(shown)), ("time-by-share", by_share(shown))] {
        fs::write(format!("docs/{name}.svg"), plot.svg()).expect("a place for the plot");
    }
}
