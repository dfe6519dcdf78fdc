//! `compare`: runs a log program on generated logs and compares what it prints, byte for
//! byte, with what the reference says.
//!
//!   compare [--count N] [--seed S] [--threads T] [--seconds L] -- PROGRAM [ARGUMENT ...]
//!       compares on the logs of seeds S to S + N - 1 (default 3000 logs from seed 1, 2
//!       threads, 60 seconds for each log); PROGRAM may stand behind an emulator's name
//!   compare --log SEED FILE        writes the log of one seed, to run a failure again
//!   compare --expect SEED          prints what the reference says to it
//!   compare --coverage COUNT SEED  counts what the logs of these seeds reach
//!
//! The last line of a comparison is `N logs agree, D differ`; it ends with 0 only
//! when D is 0.

mod coverage;
mod generate;
mod invent;
mod log;
mod pairs;
mod random;
mod reference;

use std::io::{Read, Write};
use std::os::unix::process::ExitStatusExt;
use std::process::{Child, Command, ExitCode, Stdio};
use std::sync::atomic::{AtomicU64, Ordering};
use std::sync::{mpsc, Arc};
use std::time::Duration;

/// Differences shown in full; the others are only counted.
const MOST_SHOWN: u64 = 10;

struct Plan {
    count: u64,
    seed: u64,
    threads: u64,
    seconds: u64,
    program: Vec<String>,
}

#[derive(Default)]
struct Tally {
    next: AtomicU64,
    done: AtomicU64,
    differences: AtomicU64,
}

fn main() -> ExitCode {
    let words: Vec<String> = std::env::args().skip(1).collect();
    match run(&words) {
        Ok(true) => ExitCode::SUCCESS,
        Ok(false) => ExitCode::from(1),
        Err(message) => {
            eprintln!("compare: {message}");
            ExitCode::from(2)
        }
    }
}

fn run(words: &[String]) -> Result<bool, String> {
    let names: Vec<&str> = words.iter().map(String::as_str).collect();
    match names.as_slice() {
        ["--log", seed, file] => {
            let log = generate::log(number(seed)?);
            std::fs::write(file, log).map_err(|error| error.to_string())?;
            Ok(true)
        }
        ["--expect", seed] => {
            print!("{}", log::replay(&generate::log(number(seed)?)));
            Ok(true)
        }
        ["--coverage", count, seed] => {
            coverage::measure(number(count)?, number(seed)?);
            Ok(true)
        }
        _ => Ok(compare(plan(&names)?)),
    }
}

fn number(word: &str) -> Result<u64, String> {
    word.parse().map_err(|_| format!("not a number: {word}"))
}

fn plan(names: &[&str]) -> Result<Plan, String> {
    let end = names
        .iter()
        .position(|&name| name == "--")
        .ok_or("no -- before the program; see the top of compare.rs")?;
    let mut plan = Plan {
        count: 3000,
        seed: 1,
        threads: 2,
        seconds: 60,
        program: names[end + 1..].iter().map(|n| n.to_string()).collect(),
    };
    for flag in names[..end].chunks(2) {
        let value = number(flag.get(1).ok_or("a flag without its number")?)?;
        match flag[0] {
            "--count" => plan.count = value,
            "--seed" => plan.seed = value,
            "--threads" => plan.threads = value.max(1),
            "--seconds" => plan.seconds = value,
            other => return Err(format!("unknown flag {other}")),
        }
    }
    if plan.program.is_empty() {
        return Err("no program named".to_string());
    }
    Ok(plan)
}

fn compare(plan: Plan) -> bool {
    let plan = Arc::new(plan);
    let tally = Arc::new(Tally::default());
    let workers: Vec<_> = (0..plan.threads)
        .map(|_| {
            let (plan, tally) = (plan.clone(), tally.clone());
            std::thread::spawn(move || work(&plan, &tally))
        })
        .collect();
    let whole = workers.into_iter().all(|worker| worker.join().is_ok());
    let done = tally.done.load(Ordering::SeqCst);
    let differences = tally.differences.load(Ordering::SeqCst);
    println!("{} logs agree, {differences} differ", done - differences);
    whole && differences == 0 && done == plan.count
}

/// Takes seeds until none is left.
fn work(plan: &Plan, tally: &Tally) {
    loop {
        let turn = tally.next.fetch_add(1, Ordering::SeqCst);
        if turn >= plan.count {
            return;
        }
        let seed = plan.seed.wrapping_add(turn);
        let log = generate::log(seed);
        let expected = log::replay(&log).into_bytes();
        if let Err(message) = check(plan, &log, &expected) {
            let earlier = tally.differences.fetch_add(1, Ordering::SeqCst);
            if earlier < MOST_SHOWN {
                println!("seed {seed}: {message}");
            }
        }
        let done = 1 + tally.done.fetch_add(1, Ordering::SeqCst);
        if done % 500 == 0 {
            println!("{done} logs done");
        }
    }
}

/// Runs the program on one log.
fn check(plan: &Plan, log: &[u8], expected: &[u8]) -> Result<(), String> {
    let mut child = Command::new(&plan.program[0])
        .args(&plan.program[1..])
        .stdin(Stdio::piped())
        .stdout(Stdio::piped())
        .spawn()
        .map_err(|error| format!("the program does not start: {error}"))?;
    let printed = printed_by(&mut child, log.to_vec(), plan.seconds);
    if printed.is_none() {
        let _ = child.kill();
    }
    let status = child.wait().map_err(|error| error.to_string())?;
    let printed = printed.ok_or(format!("no end after {} seconds", plan.seconds))?;
    if printed != expected {
        return Err(first_difference(&printed, expected));
    }
    // docs/SCOPE.md gives no exit numbers; a signal or a panic is a failure all the same.
    if status.signal().is_some() || status.code() == Some(101) {
        return Err(format!("the program broke off: {status}"));
    }
    Ok(())
}

/// Feeds and reads at once, so that neither side waits for the other; none at the time limit.
fn printed_by(child: &mut Child, log: Vec<u8>, seconds: u64) -> Option<Vec<u8>> {
    let mut input = child.stdin.take()?;
    let mut output = child.stdout.take()?;
    let (sender, receiver) = mpsc::channel();
    std::thread::spawn(move || {
        // A program may stop reading early; that shows in what it prints.
        let _ = input.write_all(&log);
    });
    std::thread::spawn(move || {
        let mut printed = Vec::new();
        if output.read_to_end(&mut printed).is_ok() {
            let _ = sender.send(printed);
        }
    });
    receiver.recv_timeout(Duration::from_secs(seconds)).ok()
}

fn first_difference(printed: &[u8], expected: &[u8]) -> String {
    let (printed_lines, expected_lines) = (lines(printed), lines(expected));
    let longer = printed_lines.len().max(expected_lines.len());
    let place = (0..longer)
        .find(|&place| printed_lines.get(place) != expected_lines.get(place))
        .unwrap_or(longer);
    format!(
        "line {}\n  printed:  {}\n  expected: {}",
        place + 1,
        shown(printed_lines.get(place)),
        shown(expected_lines.get(place))
    )
}

fn lines(text: &[u8]) -> Vec<&[u8]> {
    text.split_inclusive(|&byte| byte == b'\n').collect()
}

fn shown(line: Option<&&[u8]>) -> String {
    let Some(line) = line else {
        return "(no such line)".to_string();
    };
    let mut text = String::from_utf8_lossy(line).escape_debug().to_string();
    if text.len() > 300 {
        text = text.chars().take(300).collect::<String>() + " ...";
    }
    text
}
