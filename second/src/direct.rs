//! `direct`: drives every exported call of the static library on random inputs against the
//! reference, with guard bytes around every lent buffer.
//!
//!   direct SEED ROUNDS
//!
//! Round r draws from seed SEED + r alone, so a failing round is run again by
//! `direct (SEED + r) 1`. The last line is `direct: N checks, D failures`; it ends with 0
//! only when D is 0.

#[path = "../../bindings/rust/src/exported.rs"]
mod exported;
mod invent;
mod library;
mod pairs;
mod random;
mod reference;

use invent::Inventor;
use library::{Lent, Tables, TABLES};
use random::Random;
use reference::{listing, Refusal, Store, Term, MOST_KEYS, SLOTS};
use std::collections::BTreeMap;
use std::io::Write;
use std::process::ExitCode;
use std::sync::atomic::{AtomicU64, Ordering};
use std::time::Duration;

const TABLE: Refusal = 1;
const MOST_SHOWN: u64 = 20;
/// A call that has not returned after this time is taken for one that never does.
const PATIENCE: Duration = Duration::from_secs(120);

static CHECKS: AtomicU64 = AtomicU64::new(0);

/// What a round is owed by the calls: the full promise, refusal 1 for a short table, or,
/// on memory that no opening made, only that they end and write nothing but lent memory
/// (docs/SCOPE.md, 'Store').
#[derive(Clone, Copy, PartialEq)]
enum Promise {
    Full,
    Short,
    Safe,
}

/// How often each call has given each number where the full promise was owed.
type Results = BTreeMap<(&'static str, u32), u64>;

/// What a call that is not refused gives.
struct Answer {
    numbers: Vec<usize>,
    bytes: Vec<u8>,
}

/// One call that has been made.
struct Call {
    name: &'static str,
    result: u32,
    expected: Result<Answer, Refusal>,
    inputs: Vec<Lent>,
    numbers: Vec<Lent>,
    out: Option<Lent>,
    may_change_tables: bool,
}

struct Driver {
    seed: u64,
    inventor: Inventor,
    store: Store,
    tables: Tables,
    promise: Promise,
    failures: u64,
    results: Results,
}

fn main() -> ExitCode {
    let words: Vec<String> = std::env::args().skip(1).collect();
    let numbers: Vec<u64> = words.iter().filter_map(|w| w.parse().ok()).collect();
    let [seed, rounds] = numbers[..] else {
        eprintln!("direct SEED ROUNDS");
        return ExitCode::from(2);
    };
    std::thread::spawn(watch);
    let mut failures = 0;
    let mut results = Results::new();
    for round in 0..rounds {
        failures += run_round(seed.wrapping_add(round), failures, &mut results);
        if round % 10 == 9 {
            println!("{} rounds done, {} checks", round + 1, checks());
            let _ = std::io::stdout().flush();
        }
    }
    for ((name, result), times) in &results {
        println!("{times:8}  {name} {result}");
    }
    println!("direct: {} checks, {failures} failures", checks());
    ExitCode::from(u8::from(failures > 0))
}

fn checks() -> u64 {
    CHECKS.load(Ordering::SeqCst)
}

/// Ends the program when no call has returned for a long time.
fn watch() {
    loop {
        let before = checks();
        std::thread::sleep(PATIENCE);
        if checks() == before {
            println!("no call has returned since check {before}");
            std::process::exit(3);
        }
    }
}

/// One round: an opening on garbage, many calls, then calls on memory that no opening made.
fn run_round(seed: u64, failures_before: u64, results: &mut Results) -> u64 {
    let mut random = Random::new(seed);
    let kind = random.below(6);
    let signature = match kind {
        0 => invent::every_arity(&mut random),
        1 | 2 => key_limit_signature(&mut random),
        3 => invent::small_signature(&mut random),
        _ => invent::signature(&mut random),
    };
    let store = Store::open(&signature).expect("an accepted signature");
    let tables = Tables::garbage(&mut random);
    let mut driver = Driver {
        seed,
        inventor: Inventor::new(random, signature.clone()),
        store,
        tables,
        promise: Promise::Full,
        failures: failures_before,
        results: std::mem::take(results),
    };
    driver.open(&signature);
    match kind {
        0 => driver.hard_pairs(),
        1 => driver.fill_keys(),
        3 => driver.fill_slots(),
        _ => (),
    }
    (0..100).for_each(|_| driver.tableless());
    driver.mixed(300);
    driver.table_lengths();
    driver.unmade_memory();
    *results = driver.results;
    driver.failures - failures_before
}

/// 256 symbols of all arities, so that 4,096 distinct keys come together soon.
fn key_limit_signature(random: &mut Random) -> Vec<u8> {
    let mut signature = invent::spread_signature(random, 256);
    signature[..9].copy_from_slice(&[1, 0, 2, 3, 4, 5, 6, 7, 8]);
    signature
}

impl Driver {
    fn random(&mut self) -> &mut Random {
        &mut self.inventor.random
    }

    fn lend(&mut self, bytes: &[u8]) -> Lent {
        let shift = self.random().below(8);
        Lent::new(bytes, 1, shift)
    }

    /// Numbers for a call to write, holding something to be left alone by a refusal.
    fn lend_numbers(&mut self, count: usize) -> Vec<Lent> {
        (0..count)
            .map(|_| Lent::number(self.inventor.random.next()))
            .collect()
    }

    /// A buffer about as long as the answer; at times empty or one byte too short.
    fn lend_out(&mut self, needed: usize) -> Lent {
        let length = match self.random().below(8) {
            0 => 0,
            1 => needed.saturating_sub(1),
            2 => self.random().between(0, needed),
            3 | 4 => needed,
            _ => needed + self.random().between(1, 9),
        };
        let content = self.random().bytes(length);
        self.lend(&content)
    }

    fn stored_term(&mut self) -> Option<Term> {
        let slots = self.store.in_use();
        if slots.is_empty() {
            return None;
        }
        let slot = *self.inventor.random.pick(&slots);
        self.store.stored(slot).ok().cloned()
    }

    /// Term bytes: near a stored term, any, or malformed.
    fn term_bytes(&mut self) -> Vec<u8> {
        match (self.random().below(10), self.stored_term()) {
            (0, _) => self.inventor.bad_term(),
            (1..=6, Some(term)) => self.inventor.relative(&term).bytes(),
            _ => self.inventor.term().bytes(),
        }
    }

    /// Slots in use more often than others, and numbers far beyond 511.
    fn slot(&mut self) -> usize {
        let slots = self.store.in_use();
        if slots.is_empty() || self.random().chance(20) {
            let any = self.random().next() as usize;
            let near = self.random().below(SLOTS);
            return *self.random().pick(&[
                near,
                511,
                512,
                65_536,
                1 << 32,
                (1 << 32) + near,
                usize::MAX,
                any,
            ]);
        }
        *self.random().pick(&slots)
    }

    /// What the reference says, but for the round's promise.
    fn owed<T>(&self, answer: Result<T, Refusal>) -> Result<T, Refusal> {
        match self.promise {
            Promise::Short => Err(TABLE),
            _ => answer,
        }
    }

    fn fail(&mut self, name: &str, what: &str) {
        self.failures += 1;
        if self.failures <= MOST_SHOWN {
            println!("seed {}, check {}, {name}: {what}", self.seed, checks());
        }
    }

    fn require(&mut self, holds: bool, name: &str, what: &str) {
        if !holds {
            self.fail(name, what);
        }
    }

    /// Looks at all that a call may and may not have done.
    fn settle(&mut self, call: Call) {
        CHECKS.fetch_add(1, Ordering::SeqCst);
        let name = call.name;
        let mut lent = call.inputs.iter().chain(&call.numbers).chain(&call.out);
        let guarded = lent.all(Lent::is_guarded) && self.tables.are_guarded();
        self.require(guarded, name, "wrote outside the lent memory");
        let kept = call.inputs.iter().all(Lent::is_unchanged);
        self.require(kept, name, "changed its input");
        if !call.may_change_tables {
            let unchanged = self.tables.are_unchanged();
            self.require(unchanged, name, "a question changed a table");
        }
        if self.promise != Promise::Safe {
            *self.results.entry((name, call.result)).or_insert(0) += 1;
            match &call.expected {
                Ok(answer) if call.result == 0 => self.settle_answer(&call, answer),
                Err(refusal) if call.result == *refusal => self.settle_refusal(&call),
                other => {
                    let owed = other.as_ref().err().copied().unwrap_or(0);
                    let what = format!("answered {}, expected {owed}", call.result);
                    self.fail(name, &what);
                }
            }
        }
        self.tables.accept_if(call.may_change_tables);
    }

    /// A refusal leaves tables, answer buffer and numbers untouched.
    fn settle_refusal(&mut self, call: &Call) {
        let kept = call.numbers.iter().chain(&call.out).all(Lent::is_unchanged);
        self.require(kept, call.name, "a refusal wrote its answer");
        let unchanged = self.tables.are_unchanged();
        self.require(unchanged, call.name, "a refusal changed a table");
    }

    /// Success writes the numbers and the first bytes of the buffer, and no byte beyond.
    fn settle_answer(&mut self, call: &Call, answer: &Answer) {
        let numbers: Vec<u64> = call.numbers.iter().map(Lent::value).collect();
        let owed: Vec<u64> = answer.numbers.iter().map(|&n| n as u64).collect();
        if numbers != owed {
            let what = format!("numbers {numbers:?}, expected {owed:?}");
            self.fail(call.name, &what);
        }
        if let Some(out) = &call.out {
            let written = answer.bytes.len();
            let right = out.content()[..written] == answer.bytes[..];
            self.require(right, call.name, "wrong bytes in the buffer");
            let kept = out.is_unchanged_from(written);
            self.require(kept, call.name, "wrote beyond its answer");
        }
        if call.may_change_tables {
            let kept = self.tables.are_unchanged_beyond();
            let what = "changed a table beyond its documented length";
            self.require(kept, call.name, what);
        }
    }

    fn open(&mut self, signature: &[u8]) {
        let input = self.lend(signature);
        let result = library::open(&mut self.tables, &input);
        let opened = self.owed(Store::open(signature));
        let expected = opened.map(|store| {
            self.store = store;
            Answer {
                numbers: Vec::new(),
                bytes: Vec::new(),
            }
        });
        if expected.is_ok() {
            let random = self.inventor.random.clone();
            self.inventor = Inventor::new(random, signature.to_vec());
        }
        self.settle(Call {
            name: "open",
            result,
            expected,
            inputs: vec![input],
            numbers: Vec::new(),
            out: None,
            may_change_tables: true,
        });
    }

    fn insert(&mut self, term: &[u8]) {
        let input = self.lend(term);
        let mut numbers = self.lend_numbers(1);
        let result = library::insert(&mut self.tables, &input, &mut numbers);
        let expected = match self.promise {
            Promise::Full => self.store.insert(term),
            _ => Err(TABLE),
        };
        self.settle(Call {
            name: "insert",
            result,
            expected: expected.map(|slot| Answer {
                numbers: vec![slot],
                bytes: Vec::new(),
            }),
            inputs: vec![input],
            numbers,
            out: None,
            may_change_tables: true,
        });
    }

    fn delete(&mut self, slot: usize) {
        let result = library::delete(&mut self.tables, slot);
        let expected = match self.promise {
            Promise::Full => self.store.delete(slot),
            _ => Err(TABLE),
        };
        self.settle(Call {
            name: "delete",
            result,
            expected: expected.map(|()| Answer {
                numbers: Vec::new(),
                bytes: Vec::new(),
            }),
            inputs: Vec::new(),
            numbers: Vec::new(),
            out: None,
            may_change_tables: true,
        });
    }

    fn with_key(&mut self, key: &[u8]) {
        let found = self.store.with_key(key, usize::MAX);
        let needed = 2 * found.as_ref().map_or(4, Vec::len);
        let input = self.lend(key);
        let mut out = self.lend_out(needed);
        let mut numbers = self.lend_numbers(1);
        let room = out.content().len();
        let result = library::with_key(&mut self.tables, &input, &mut out, &mut numbers);
        let answer = self.store.with_key(key, room).map(|slots| Answer {
            numbers: vec![slots.len()],
            bytes: listing(&slots),
        });
        self.settle(Call {
            name: "with_key",
            result,
            expected: self.owed(answer),
            inputs: vec![input],
            numbers,
            out: Some(out),
            may_change_tables: false,
        });
    }

    fn retrieve(&mut self, relation: usize, question: &[u8]) {
        let found = self.store.retrieve(relation, question, usize::MAX);
        let needed = 2 * found.map_or(4, |(_, answers)| answers.len());
        let input = self.lend(question);
        let mut out = self.lend_out(needed);
        let mut numbers = self.lend_numbers(2);
        let room = out.content().len();
        let tables = &mut self.tables;
        let result = library::retrieve(tables, relation, &input, &mut out, &mut numbers);
        let found = self.store.retrieve(relation, question, room);
        let answer = found.map(|(candidates, answers)| Answer {
            numbers: vec![candidates, answers.len()],
            bytes: listing(&answers),
        });
        self.settle(Call {
            name: "retrieve",
            result,
            expected: self.owed(answer),
            inputs: vec![input],
            numbers,
            out: Some(out),
            may_change_tables: false,
        });
    }

    fn solve(&mut self, slot: usize, question: &[u8]) {
        let solved = self.store.solve(slot, question, usize::MAX);
        let needed = solved.map_or(8, |(_, record)| record.len());
        let input = self.lend(question);
        let mut out = self.lend_out(needed);
        let mut numbers = self.lend_numbers(2);
        let room = out.content().len();
        let result = library::solve(&mut self.tables, slot, &input, &mut out, &mut numbers);
        let solved = self.store.solve(slot, question, room);
        let answer = solved.map(|(fields, record)| Answer {
            numbers: vec![fields, record.len()],
            bytes: record,
        });
        self.settle(Call {
            name: "solve",
            result,
            expected: self.owed(answer),
            inputs: vec![input],
            numbers,
            out: Some(out),
            may_change_tables: false,
        });
    }

    /// The calls that need no tables; they owe the full promise whatever the tables are.
    fn tableless(&mut self) {
        let promise = std::mem::replace(&mut self.promise, Promise::Full);
        match self.random().below(4) {
            0 => self.check_signature(),
            1 => self.check_term(),
            2 => self.unifiable(),
            _ => self.argument(),
        }
        self.promise = promise;
    }

    /// The round's signature, another one, or one that opening refuses.
    fn any_signature(&mut self) -> Vec<u8> {
        match self.random().below(10) {
            0 => invent::bad_signature(&mut self.inventor.random),
            1..=3 => invent::signature(&mut self.inventor.random),
            _ => self.inventor.signature.clone(),
        }
    }

    fn check_signature(&mut self) {
        let signature = self.any_signature();
        let input = self.lend(&signature);
        let result = library::check_signature(&input);
        self.settle(Call {
            name: "check_signature",
            result,
            expected: reference::check_signature(&signature).map(|()| Answer {
                numbers: Vec::new(),
                bytes: Vec::new(),
            }),
            inputs: vec![input],
            numbers: Vec::new(),
            out: None,
            may_change_tables: false,
        });
    }

    fn check_term(&mut self) {
        let signature = self.any_signature();
        let term = self.term_bytes();
        let inputs = vec![self.lend(&signature), self.lend(&term)];
        let result = library::check_term(&inputs[0], &inputs[1]);
        self.settle(Call {
            name: "check_term",
            result,
            expected: reference::check_term(&signature, &term).map(|_| Answer {
                numbers: Vec::new(),
                bytes: Vec::new(),
            }),
            inputs,
            numbers: Vec::new(),
            out: None,
            may_change_tables: false,
        });
    }

    fn unifiable(&mut self) {
        let signature = self.any_signature();
        let (stored, question) = (self.term_bytes(), self.term_bytes());
        let inputs = vec![self.lend(&signature), self.lend(&stored), self.lend(&question)];
        let mut numbers = self.lend_numbers(1);
        let result = library::unifiable(&inputs, &mut numbers);
        let terms = [&stored, &question].map(|bytes| reference::check_term(&signature, bytes));
        let signed = reference::check_signature(&signature).err();
        let faults = terms.iter().filter_map(|term| term.as_ref().err().copied());
        let expected = match reference::first_in_rank(signed.into_iter().chain(faults)) {
            Some(refusal) => Err(refusal),
            None => {
                let [stored, question] = terms.map(|term| term.expect("neither is refused"));
                Ok(Answer {
                    numbers: vec![reference::is_answer(4, &question, &stored) as usize],
                    bytes: Vec::new(),
                })
            }
        };
        self.settle(Call {
            name: "unifiable",
            result,
            expected,
            inputs,
            numbers,
            out: None,
            may_change_tables: false,
        });
    }

    fn argument(&mut self) {
        let signature = self.any_signature();
        let term = self.term_bytes();
        let arity = match reference::check_term(&signature, &term) {
            Ok(Term::Symbol(_, arguments)) => arguments.len(),
            _ => 0,
        };
        let number = match self.random().chance(10) {
            true => *self.random().pick(&[9, 256, 257, 1 << 32, usize::MAX]),
            false => self.random().between(0, arity + 1),
        };
        let inputs = vec![self.lend(&signature), self.lend(&term)];
        let mut numbers = self.lend_numbers(2);
        let result = library::argument(&inputs[0], &inputs[1], number, &mut numbers);
        let part = reference::argument(&signature, &term, number);
        self.settle(Call {
            name: "argument",
            result,
            expected: part.map(|part| Answer {
                numbers: vec![part.start, part.len()],
                bytes: Vec::new(),
            }),
            inputs,
            numbers,
            out: None,
            may_change_tables: false,
        });
    }

    /// Keys of stored terms, free ones of 0 to 32 steps, and each reason of refusal 9.
    fn any_key(&mut self) -> Vec<u8> {
        let of_term = self.stored_term().map(|term| {
            let keys: Vec<_> = reference::keys_of(&term).into_iter().collect();
            self.inventor.random.pick(&keys).bytes()
        });
        let steps = *self.random().pick(&[0, 1, 2, 5, 30, 31, 32, 40]);
        let key = match of_term {
            Some(key) if self.random().chance(75) => key,
            _ => self.inventor.free_key(steps),
        };
        match self.random().chance(30) && key.len() <= 95 {
            true => self.inventor.damaged_key(key),
            false => key,
        }
    }

    /// One call of any kind.
    fn step(&mut self) {
        match self.random().weighted(&[25, 12, 18, 20, 18, 12, 1]) {
            0 => {
                let term = self.term_bytes();
                self.insert(&term);
            }
            1 => {
                let slot = self.slot();
                self.delete(slot);
            }
            2 => {
                let key = self.any_key();
                self.with_key(&key);
            }
            3 => {
                let relation = match self.random().chance(8) {
                    true => *self.random().pick(&[5, 255, 256, 1 << 32, usize::MAX]),
                    false => self.random().below(5),
                };
                let question = self.term_bytes();
                self.retrieve(relation, &question);
            }
            4 => self.solve_step(),
            5 => self.tableless(),
            _ => {
                let signature = self.any_signature();
                self.open(&signature);
            }
        }
    }

    fn solve_step(&mut self) {
        let slot = self.slot();
        let question = match self.store.stored(slot).cloned() {
            Ok(term) if self.random().chance(80) => self.inventor.relative(&term).bytes(),
            _ => self.term_bytes(),
        };
        self.solve(slot, &question);
    }

    fn mixed(&mut self, steps: usize) {
        for turn in 1..=steps {
            match self.random().chance(4) {
                true => self.short_step(),
                false => self.step(),
            }
            if turn % 100 == 0 {
                self.audit();
            }
        }
    }

    /// All slots in use, and the slots of many keys, also of keys that may have gone.
    fn audit(&mut self) {
        self.retrieve(2, &[0x80, 0]);
        self.retrieve(4, &[0x80, 0]);
        let keys: Vec<Vec<u8>> = self.store.keys.keys().map(|k| k.bytes()).collect();
        if keys.is_empty() {
            return;
        }
        for _ in 0..30 {
            let key = self.random().pick(&keys).clone();
            self.with_key(&key);
        }
    }

    /// One call with some table shorter than documented: refusal 1, whatever else is wrong.
    fn short_step(&mut self) {
        let table = self.random().below(TABLES.len());
        let documented = TABLES[table].1;
        let any = self.random().below(documented);
        let count = *self
            .random()
            .pick(&[documented - 1, documented - 1, 0, any]);
        self.with_short(table, count, Driver::step);
    }

    /// Runs calls on shortened tables, then takes the whole ones again.
    fn with_short(&mut self, table: usize, count: usize, calls: fn(&mut Driver)) {
        let short = self.tables.shortened(table, count);
        let whole = std::mem::replace(&mut self.tables, short);
        self.promise = Promise::Short;
        calls(self);
        self.promise = Promise::Full;
        self.tables = whole;
    }

    /// Each table one element too short and empty, for each call that takes tables.
    fn table_lengths(&mut self) {
        for (table, (_, documented)) in TABLES.into_iter().enumerate() {
            for count in [documented - 1, 0] {
                self.with_short(table, count, |driver| {
                    let signature = driver.any_signature();
                    driver.open(&signature);
                    let term = driver.term_bytes();
                    driver.insert(&term);
                    let slot = driver.slot();
                    driver.delete(slot);
                    let key = driver.any_key();
                    driver.with_key(&key);
                    let relation = driver.random().below(7);
                    driver.retrieve(relation, &term);
                    driver.solve_step();
                });
            }
        }
    }

    /// Pairs that are hard to unify, solved both ways round.
    fn hard_pairs(&mut self) {
        for _ in 0..40 {
            let (stored, question) = pairs::hard_pair(&mut self.inventor);
            self.insert(&stored.bytes());
            self.insert(&question.bytes());
            for slot in self.store.in_use().into_iter().rev().take(2) {
                self.solve(slot, &question.bytes());
                self.solve(slot, &stored.bytes());
            }
            self.retrieve(4, &question.bytes());
        }
    }

    /// All slots in use, then refusal 11, then slots freed and used again.
    fn fill_slots(&mut self) {
        for _ in 0..2 {
            let mut left = 2 * SLOTS;
            while self.store.in_use().len() < SLOTS && left > 0 {
                let size = self.random().between(1, 6);
                let term = self.inventor.sized(size);
                self.insert(&term.bytes());
                left -= 1;
            }
            for _ in 0..5 {
                let term = self.term_bytes();
                self.insert(&term);
            }
            self.audit();
            for _ in 0..20 {
                let slot = self.slot();
                self.delete(slot);
            }
        }
    }

    /// Distinct keys to the edge of 4,096 and over it, freed and used again.
    fn fill_keys(&mut self) {
        for _ in 0..3 {
            let mut left = SLOTS;
            while self.store.keys.len() + 20 < MOST_KEYS && left > 0 {
                let size = self.random().between(20, 32);
                let term = self.inventor.sized(size);
                self.insert(&term.bytes());
                left -= 1;
            }
            for _ in 0..25 {
                let term = self.inventor.term();
                self.insert(&term.bytes());
            }
            self.audit();
            for _ in 0..40 {
                let slot = self.slot();
                self.delete(slot);
            }
        }
    }

    /// Calls on tables that no opening made: slightly damaged ones, or all random.
    fn unmade_memory(&mut self) {
        self.promise = Promise::Safe;
        for _ in 0..4 {
            match self.random().below(3) {
                0 => self.tables = Tables::garbage(&mut self.inventor.random),
                1 => {
                    let table = self.random().below(TABLES.len());
                    let count = *self.random().pick(&[1, 10, 1000]);
                    self.tables.0[table].damage(&mut self.inventor.random, count);
                }
                _ => {
                    for lent in &mut self.tables.0 {
                        lent.damage(&mut self.inventor.random, 20);
                    }
                }
            }
            for _ in 0..25 {
                self.unmade_step();
            }
        }
        self.promise = Promise::Full;
        let signature = invent::signature(&mut self.inventor.random);
        self.open(&signature);
        self.mixed(100);
    }

    /// Any call but an opening, which would make the memory good again.
    fn unmade_step(&mut self) {
        let term = self.term_bytes();
        match self.random().below(6) {
            0 => self.insert(&term),
            1 => {
                let slot = self.slot();
                self.delete(slot);
            }
            2 => {
                let key = self.any_key();
                self.with_key(&key);
            }
            3 => {
                let relation = self.random().below(6);
                self.retrieve(relation, &term);
            }
            4 => {
                let slot = self.random().below(SLOTS);
                self.solve(slot, &term);
            }
            _ => self.tableless(),
        }
    }
}
