//! Counts what the generated logs reach, to see that every edge of docs/SCOPE.md is met.

use crate::generate;
use crate::log;
use crate::reference::{check_term, keys_of, Store, Unifier, KEYS, MOST_KEYS};
use std::collections::BTreeMap;
use std::time::{Duration, Instant};

type Counts = BTreeMap<String, u64>;

/// Prints the counts over many seeds, and how fast the reference alone replays.
pub fn measure(count: u64, seed: u64) {
    let mut counts = Counts::new();
    let mut bytes = 0;
    let mut replaying = Duration::ZERO;
    for turn in 0..count {
        let log = generate::log(seed.wrapping_add(turn));
        bytes += log.len();
        let begin = Instant::now();
        let output = log::replay(&log);
        replaying += begin.elapsed();
        if output.is_empty() {
            add(&mut counts, "empty output");
        }
        count_lines(&log, &output, &mut counts);
        count_edges(&log, &mut counts);
    }
    for (name, times) in &counts {
        println!("{times:8}  {name}");
    }
    let seconds = replaying.as_secs_f64();
    let rate = count as f64 / seconds;
    println!("{count} logs of {bytes} bytes in {seconds:.1} s, {rate:.0} logs a second");
}

fn add(counts: &mut Counts, name: &str) {
    *counts.entry(name.to_string()).or_insert(0) += 1;
}

/// One count for each kind of line.
fn count_lines(log: &[u8], output: &str, counts: &mut Counts) {
    let mut rest = log;
    for line in output.lines() {
        let field = log::next_field(rest);
        let words: Vec<&str> = line.split(' ').collect();
        let mut name = words[..2].join(" ");
        match (words[1], &field) {
            ("no", _) => name = line.to_string(),
            ("ok", Some((field, _))) if field.tag == 4 => {
                let some = if words[3] == "0" { "no" } else { "some" };
                name = format!("retrieve ok, relation {}, {some} answers", field.payload[0]);
                if words[2] != words[3] {
                    name += ", more candidates";
                }
            }
            ("ok", Some((field, _))) if field.tag == 5 && words[2] == "0" => {
                name += ", no fields";
            }
            _ => (),
        }
        add(counts, &name);
        rest = field.map_or(rest, |(_, after)| after);
    }
}

/// Counts the numbers that stand exactly on an edge.
fn count_edges(log: &[u8], counts: &mut Counts) {
    if (65_534..=65_537).contains(&log.len()) {
        add(counts, &format!("edge: input of {} bytes", log.len()));
    }
    let Some((first, mut rest)) = log::next_field(log) else {
        return;
    };
    let Ok(mut store) = Store::open(first.payload) else {
        return;
    };
    while let Some((field, after)) = log::next_field(rest) {
        rest = after;
        match field.tag {
            2 => insert_edges(&mut store, field.payload, counts),
            3 if field.payload.len() == 2 => {
                let slot = u16::from_be_bytes([field.payload[0], field.payload[1]]);
                let _ = store.delete(usize::from(slot));
            }
            5 if field.payload.len() > 2 => solve_edges(&store, field.payload, counts),
            1 | 4 | 5 => (),
            _ => return,
        }
    }
}

fn insert_edges(store: &mut Store, bytes: &[u8], counts: &mut Counts) {
    let was_full = store.keys.len() == MOST_KEYS;
    let outcome = store.insert(bytes);
    let is_full = store.keys.len() == MOST_KEYS;
    match outcome {
        Ok(_) if was_full => add(counts, "edge: insert without new keys at 4096 keys"),
        Ok(_) if is_full => add(counts, "edge: insert that makes 4096 keys"),
        Err(KEYS) => {
            let term = check_term(&store.signature, bytes).expect("keys come after the term");
            if store.keys.len() + store.new_keys(&keys_of(&term)) == MOST_KEYS + 1 {
                add(counts, "edge: insert refused for one key too many");
            }
        }
        _ => (),
    }
}

fn solve_edges(store: &Store, payload: &[u8], counts: &mut Counts) {
    let slot = usize::from(u16::from_be_bytes([payload[0], payload[1]]));
    let question = check_term(&store.signature, &payload[2..]);
    let (Ok(stored), Ok(question)) = (store.stored(slot), question) else {
        return;
    };
    let Some(unifier) = Unifier::find(stored, &question) else {
        return;
    };
    let sizes = unifier.listed().into_iter().map(|(_, r)| unifier.items(r));
    let largest = sizes.max().unwrap_or(0);
    if (2046..=2050).contains(&largest) {
        add(counts, &format!("edge: largest value has {largest} items"));
    }
    if largest > 1_000_000 {
        add(counts, "edge: largest value has over a million items");
    }
    if let Ok((_, record)) = unifier.record() {
        if (32_760..32_776).contains(&record.len()) {
            add(counts, &format!("edge: record of {} bytes", record.len()));
        }
    }
}
