//! Ratio 3: instructions of the library's unifier on pairs, counted by callgrind.

use crate::costly::{search, Pair, SEARCHED};
use crate::library::{unifiable, Tables};
use crate::once::counted_pass;
use crate::timing::{median, Ratio};
use std::fs;
use std::process::{Command, Stdio};

const PAIRS: &str = "target/bench/pairs.txt";
const COUNTS: &str = "target/bench/pairs.counts";

fn written(bytes: &[u8]) -> String {
    bytes.iter().map(|byte| format!("{byte:02x}")).collect()
}

fn read(digits: &str) -> Vec<u8> {
    let starts = (0..digits.len()).step_by(2);
    starts.map(|at| u8::from_str_radix(&digits[at..at + 2], 16).expect("two digits")).collect()
}

/// One pair by the named call: `unifiable`, or solve on tables that hold the stored term.
fn ask(call: &str, signature: &[u8], stored: &[u8], question: &[u8]) {
    if call == "unifiable" {
        return counted_pass(&mut || {
            std::hint::black_box(unifiable(signature, stored, question));
        });
    }
    let mut tables = Tables::open(signature);
    let slot = tables.insert(stored).expect("a term");
    let out = &mut [0; 32_768];
    counted_pass(&mut || {
        std::hint::black_box(tables.solve(slot, question, out).is_ok());
    });
}

/// The pass that callgrind watches: each pair of the file once.
pub fn ask_all(call: &str, file: &str) {
    let lines = fs::read_to_string(file).expect("a file of pairs");
    for line in lines.lines() {
        let fields: Vec<Vec<u8>> = line.split(' ').map(read).collect();
        let [signature, stored, question] = fields.as_slice() else { panic!("three fields") };
        ask(call, signature, stored, question);
    }
}

/// The instructions for each pair within the named function; none if valgrind is not there.
fn counts(pairs: &[Pair], call: &str, within: &str) -> Option<Vec<f64>> {
    let line = |pair: &Pair| {
        [&pair.signature, &pair.stored, &pair.question].map(|bytes| written(bytes)).join(" ") + "\n"
    };
    fs::write(PAIRS, pairs.iter().map(line).collect::<String>()).expect("a place for the pairs");
    let _ = fs::remove_file(COUNTS);
    let program = std::env::current_exe().expect("the name of this program");
    let status = Command::new("valgrind")
        .args(["--tool=callgrind", "--collect-atstart=no", "--combine-dumps=yes"])
        .arg(format!("--toggle-collect={within}"))
        .arg("--dump-after=counted_pass")
        .arg(format!("--callgrind-out-file={COUNTS}"))
        .arg(program)
        .args(["pairs", call, PAIRS])
        .stderr(Stdio::null())
        .status();
    if !status.is_ok_and(|status| status.success()) {
        return None;
    }
    let text = fs::read_to_string(COUNTS).expect("counts");
    let totals = text.lines().filter_map(|line| line.strip_prefix("totals: "));
    let counts: Vec<f64> = totals.map(|count| count.trim().parse().expect("a count")).collect();
    Some(counts[..pairs.len()].to_vec())
}

/// One ratio of the most costly pair to the median pair.
fn ratio(name: &str, pairs: &[Pair], kept: usize, call: &str, within: &str) -> Option<Ratio> {
    let counts = counts(pairs, call, within)?;
    let (worst, sample) = counts.split_at(kept);
    if median(sample) == 0.0 {
        println!("{name} skipped: {within} is no function of its own in this build");
        return None;
    }
    let most = counts.iter().copied().fold(0.0, f64::max);
    println!(
        "  {name}: instructions: most costly {most}, median {}, {} most costly and {} sampled pairs counted",
        median(sample),
        worst.len(),
        sample.len()
    );
    let place = counts.iter().position(|&count| count == most).expect("the most");
    println!("  stored {}, question {}", written(&pairs[place].stored), written(&pairs[place].question));
    let mut ratio = Ratio::new(name.to_string(), 50.0);
    ratio.values.push(most / median(sample));
    Some(ratio)
}

/// Ratio 3 for the whole call of `unifiable`, and for the unifier alone: in that call the compiler leaves no function of
/// it, in solve it does.
pub fn costliest() -> Vec<Ratio> {
    let (worst, sample) = search();
    println!("searched {SEARCHED} pairs for the most costly");
    let kept = worst.len();
    let pairs: Vec<Pair> = worst.into_iter().chain(sample).collect();
    let ratios = [
        ratio("costliest-pair", &pairs, kept, "unifiable", "counted_pass"),
        ratio("costliest-pair/unifier", &pairs, kept, "solve", "unify::unify"),
    ];
    if ratios[0].is_none() {
        println!("costliest-pair skipped: valgrind is not on this machine");
    }
    ratios.into_iter().flatten().collect()
}
