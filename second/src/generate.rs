//! Generates operation logs, each fully determined by its seed. The reference's own store
//! runs along, so that a log can be steered to the edges of docs/SCOPE.md.

#![allow(dead_code)]

use crate::invent::{self, Inventor};
use crate::log::MOST_INPUT;
use crate::pairs;
use crate::random::Random;
use crate::reference::{keys_of, Store, Term, MOST_KEYS, SLOTS};

/// The log of one seed.
pub fn log(seed: u64) -> Vec<u8> {
    let mut random = Random::new(seed);
    match random.weighted(&[28, 16, 10, 14, 5, 7, 4, 3, 8, 2, 3]) {
        0 => mixed(random, invent::signature),
        1 => mixed(random, invent::small_signature),
        2 => malformed(random),
        3 => hard(random, pairs::hard_pair),
        4 => full_store(random),
        5 => key_limit(random),
        6 => hard(random, value_edge),
        7 => hard(random, pairs::long_record),
        8 => damaged(random),
        9 => longest(random),
        _ => paper_cases(random),
    }
}

/// A log as it grows, with the store it leads to.
struct Writer {
    log: Vec<u8>,
    inventor: Inventor,
    store: Store,
}

impl Writer {
    /// Starts with a signature that opening accepts.
    fn new(random: Random, signature: Vec<u8>) -> Writer {
        let store = Store::open(&signature).expect("an accepted signature");
        let mut writer = Writer {
            log: Vec::new(),
            inventor: Inventor::new(random, signature.clone()),
            store,
        };
        writer.field(1, &signature);
        writer
    }

    fn random(&mut self) -> &mut Random {
        &mut self.inventor.random
    }

    fn field(&mut self, tag: u8, payload: &[u8]) {
        push_field(&mut self.log, tag, payload);
    }

    fn insert(&mut self, term: &[u8]) -> Option<usize> {
        self.field(2, term);
        self.store.insert(term).ok()
    }

    fn delete(&mut self, slot: usize) {
        self.field(3, &(slot as u16).to_be_bytes());
        let _ = self.store.delete(slot);
    }

    fn retrieve(&mut self, relation: usize, question: &[u8]) {
        let mut payload = vec![relation as u8];
        payload.extend(question);
        self.field(4, &payload);
    }

    fn solve(&mut self, slot: usize, question: &[u8]) {
        let mut payload = (slot as u16).to_be_bytes().to_vec();
        payload.extend(question);
        self.field(5, &payload);
    }

    fn any_stored(&mut self) -> Option<(usize, Term)> {
        let slots = self.store.in_use();
        if slots.is_empty() {
            return None;
        }
        let slot = *self.inventor.random.pick(&slots);
        let term = self.store.stored(slot).expect("a slot in use").clone();
        Some((slot, term))
    }

    /// A term near some stored one, or any term.
    fn near_term(&mut self) -> Term {
        match self.any_stored() {
            Some((_, term)) if self.random().chance(75) => self.inventor.relative(&term),
            _ => self.inventor.term(),
        }
    }

    /// Term bytes, malformed in `bad` of 100 cases.
    fn term_bytes(&mut self, bad: usize) -> Vec<u8> {
        if self.random().chance(bad) {
            return self.inventor.bad_term();
        }
        self.near_term().bytes()
    }

    fn fresh_or_near_bytes(&mut self, bad: usize) -> Vec<u8> {
        if self.random().chance(60) {
            return self.inventor.term().bytes();
        }
        self.term_bytes(bad)
    }

    /// A slot in use, or with `bad` of 100 one that is not, at and beyond the edges.
    fn slot(&mut self, bad: usize) -> usize {
        let slots = self.store.in_use();
        if slots.is_empty() || self.random().chance(bad) {
            let any = self.random().below(65_536);
            let next = slots.last().map_or(0, |slot| slot + 1);
            return *self
                .random()
                .pick(&[0, next, 510, 511, 512, 513, 0xFFFF, any]);
        }
        *self.random().pick(&slots)
    }

    fn relation(&mut self, bad: usize) -> usize {
        if self.random().chance(bad) {
            return *self.random().pick(&[5, 6, 127, 128, 255]);
        }
        self.random().below(5)
    }

    /// One field of any kind; `bad` of 100 parts are faulty, `weights` are those of
    /// insert, delete, retrieve, solve.
    fn step(&mut self, bad: usize, weights: &[usize]) {
        match self.random().weighted(weights) {
            0 => {
                let term = self.fresh_or_near_bytes(bad);
                self.insert(&term);
            }
            1 => {
                let slot = self.slot(bad);
                self.delete(slot);
            }
            2 => {
                let relation = self.relation(bad / 2);
                let question = self.term_bytes(bad);
                self.retrieve(relation, &question);
            }
            _ => self.solve_step(bad),
        }
    }

    fn solve_step(&mut self, bad: usize) {
        let slot = self.slot(bad);
        let stored = self.store.stored(slot).cloned();
        let question = match stored {
            Ok(term) if self.random().chance(80) => self.inventor.relative(&term).bytes(),
            _ => self.term_bytes(bad),
        };
        self.solve(slot, &question);
    }

    /// All five relations of one question.
    fn ask_all(&mut self, question: &Term) {
        for relation in 0..5 {
            self.retrieve(relation, &question.bytes());
        }
    }
}

fn push_field(log: &mut Vec<u8>, tag: u8, payload: &[u8]) {
    log.push(tag);
    log.extend((payload.len() as u16).to_be_bytes());
    log.extend(payload);
}

/// Fields of all kinds over one signature.
fn mixed(mut random: Random, signature: fn(&mut Random) -> Vec<u8>) -> Vec<u8> {
    let declared = signature(&mut random);
    let mut writer = Writer::new(random, declared);
    let fields = match writer.random().below(20) {
        0 => writer.random().between(200, 1000),
        1 => writer.random().between(0, 5),
        _ => writer.random().between(20, 200),
    };
    let bad = *writer.random().pick(&[0, 2, 5, 15]);
    let weights = *writer
        .random()
        .pick(&[[45, 10, 30, 15], [30, 25, 30, 15], [20, 5, 50, 25]]);
    for _ in 0..fields {
        if writer.log.len() < 60_000 {
            writer.step(bad, &weights);
        }
    }
    writer.log
}

fn malformed(mut random: Random) -> Vec<u8> {
    let signature = invent::signature(&mut random);
    let mut writer = Writer::new(random, signature);
    for _ in 0..writer.random().between(20, 150) {
        writer.step(60, &[40, 10, 25, 25]);
    }
    writer.log
}

/// Pairs that are hard to unify: stored, solved both ways round and asked for.
fn hard(mut random: Random, pair: fn(&mut Inventor) -> (Term, Term)) -> Vec<u8> {
    let signature = invent::every_arity(&mut random);
    let mut writer = Writer::new(random, signature);
    for _ in 0..writer.random().between(1, 12) {
        let (stored, question) = pair(&mut writer.inventor);
        for (stored, question) in [(&stored, &question), (&question, &stored)] {
            if let Some(slot) = writer.insert(&stored.bytes()) {
                writer.solve(slot, &question.bytes());
            }
        }
        if writer.random().chance(50) {
            writer.retrieve(4, &question.bytes());
        }
        if writer.random().chance(30) {
            writer.ask_all(&stored);
        }
        writer.solve_step(0);
    }
    writer.log
}

/// Values of 2,048 and 2,049 items (docs/SCOPE.md, 'Size limit').
fn value_edge(inventor: &mut Inventor) -> (Term, Term) {
    let items = *inventor.random.pick(&[2048, 2049]);
    pairs::sized_value(inventor, items)
}

/// All 512 slots in use, refusal 11, then slots freed and used again.
fn full_store(mut random: Random) -> Vec<u8> {
    let signature = match random.below(3) {
        0 => invent::small_signature(&mut random),
        1 => invent::every_arity(&mut random),
        _ => invent::spread_signature(&mut random, 40),
    };
    let mut writer = Writer::new(random, signature);
    let most = *writer.random().pick(&[1, 3, 6, 12]);
    while writer.store.in_use().len() < SLOTS {
        let size = writer.random().between(1, most);
        let term = match writer.random().chance(80) {
            true => writer.inventor.sized(size),
            false => writer.inventor.leaf(),
        };
        writer.insert(&term.bytes());
    }
    for _ in 0..writer.random().between(1, 6) {
        let bytes = writer.fresh_or_near_bytes(20);
        writer.insert(&bytes);
        for _ in 0..writer.random().between(0, 40) {
            writer.step(3, &[45, 30, 15, 10]);
        }
        while writer.store.in_use().len() < SLOTS {
            let term = writer.inventor.sized(most);
            writer.insert(&term.bytes());
        }
    }
    for _ in 0..writer.random().between(5, 60) {
        writer.step(3, &[30, 30, 30, 10]);
    }
    writer.log
}

/// Symbols below this number are roots of the terms that fill the key table; the others
/// stay fresh, so that a term under one of them has only new keys.
const FILLING_ROOTS: u16 = 128;

/// Distinct keys up to 4,096, refusal 12 on its edge, then keys freed and used again.
fn key_limit(mut random: Random) -> Vec<u8> {
    let mut signature = invent::spread_signature(&mut random, 256);
    signature[..9].copy_from_slice(&[1, 0, 2, 3, 4, 5, 6, 7, 8]);
    signature[250..].copy_from_slice(&[1, 1, 2, 2, 0, 0]);
    let mut writer = Writer::new(random, signature);
    fill_keys(&mut writer);
    for _ in 0..writer.random().between(2, 12) {
        if writer.log.len() > 50_000 {
            break;
        }
        to_the_edge(&mut writer);
        let freed = *writer.inventor.random.pick(&[1, 1, 2, 3, 10, 60]);
        for _ in 0..freed {
            let slot = writer.slot(2);
            writer.delete(slot);
        }
        writer.step(2, &[0, 0, 60, 40]);
        if writer.random().chance(60) {
            for _ in 0..writer.random().between(1, 2 * freed) {
                let term = filling_term(&mut writer);
                writer.insert(&term.bytes());
            }
        }
    }
    if writer.random().chance(20) {
        delete_all(&mut writer);
        fill_keys(&mut writer);
    }
    writer.log
}

fn fill_keys(writer: &mut Writer) {
    while writer.store.keys.len() < MOST_KEYS - 31 && writer.log.len() < 45_000 {
        let term = filling_term(writer);
        writer.insert(&term.bytes());
    }
}

/// A large term whose root is one of the filling roots.
fn filling_term(writer: &mut Writer) -> Term {
    loop {
        let size = *writer.random().pick(&[8, 20, 31, 32, 32]);
        let term = match writer.random().chance(25) {
            true => writer.inventor.chain(size),
            false => writer.inventor.sized(size),
        };
        if matches!(&term, Term::Symbol(symbol, _) if *symbol < FILLING_ROOTS) {
            return term;
        }
    }
}

fn delete_all(writer: &mut Writer) {
    let mut slots = writer.store.in_use();
    writer.random().shuffle(&mut slots);
    for slot in slots {
        writer.delete(slot);
    }
}

/// A term of exactly `count` keys, none of them in the store.
fn new_keys_term(writer: &mut Writer, count: usize) -> Option<Term> {
    for _ in 0..200 {
        let term = match writer.random().chance(30) {
            true => writer.inventor.chain(count),
            false => writer.inventor.sized(count),
        };
        if writer.store.new_keys(&keys_of(&term)) == count {
            return Some(term);
        }
    }
    None
}

/// One key too many, then exactly 4,096, then one more, then a term without new keys.
fn to_the_edge(writer: &mut Writer) {
    while writer.store.keys.len() + 31 < MOST_KEYS && writer.log.len() < 55_000 {
        let term = filling_term(writer);
        writer.insert(&term.bytes());
    }
    let left = MOST_KEYS - writer.store.keys.len();
    for count in [left + 1, left, 1] {
        if count == 0 || count > invent::MOST_ITEMS {
            continue;
        }
        if let Some(term) = new_keys_term(writer, count) {
            writer.insert(&term.bytes());
        }
    }
    if let Some((_, term)) = writer.any_stored() {
        if let Some(slot) = writer.insert(&term.bytes()) {
            if writer.random().chance(50) {
                writer.delete(slot);
            }
        }
    }
    let near = writer.near_term();
    writer.insert(&near.bytes());
}

/// A small log with one damage (docs/SCOPE.md, 'The log program').
fn damaged(mut random: Random) -> Vec<u8> {
    match random.below(14) {
        0 => return Vec::new(),
        1 => return bad_opening(random),
        2 => {
            let length = random.between(1, 40);
            return random.bytes(length);
        }
        _ => (),
    }
    let kind = random.below(8);
    let signature = invent::signature(&mut random);
    let mut writer = Writer::new(random, signature);
    for _ in 0..writer.random().between(0, 30) {
        writer.step(5, &[45, 15, 25, 15]);
    }
    match kind {
        0 => bad_field(&mut writer),
        1 => second_signature(&mut writer),
        2 => return cut_log(writer),
        3 => return without_signature(writer),
        4 => spoil_bytes(&mut writer),
        5 => {
            // A length that reaches beyond the end.
            let tag = writer.random().between(1, 5) as u8;
            writer.log.extend([tag, 0xFF, 0xFF, 0]);
            return writer.log;
        }
        _ => bad_payload(&mut writer),
    }
    for _ in 0..writer.random().between(0, 3) {
        writer.step(5, &[45, 15, 25, 15]);
    }
    writer.log
}

fn cut_log(mut writer: Writer) -> Vec<u8> {
    let length = writer.log.len();
    let cut = writer.random().between(1, length.min(200));
    writer.log.truncate(length - cut);
    writer.log
}

fn spoil_bytes(writer: &mut Writer) {
    for _ in 0..writer.random().between(1, 4) {
        let place = writer.inventor.random.below(writer.log.len());
        writer.log[place] = writer.inventor.random.byte();
    }
}

fn bad_opening(mut random: Random) -> Vec<u8> {
    let mut log = Vec::new();
    push_field(&mut log, 1, &invent::bad_signature(&mut random));
    match random.below(3) {
        0 => push_field(&mut log, 2, &[0, 0]),
        1 => push_field(&mut log, 9, &[]),
        _ => (),
    }
    log
}

fn bad_field(writer: &mut Writer) {
    let tag = *writer.random().pick(&[0, 6, 7, 16, 128, 255]);
    let length = writer.random().below(6);
    let payload = writer.random().bytes(length);
    writer.field(tag, &payload);
}

fn second_signature(writer: &mut Writer) {
    let signature = match writer.random().chance(50) {
        true => writer.inventor.signature.clone(),
        false => invent::bad_signature(&mut writer.inventor.random),
    };
    writer.field(1, &signature);
}

fn without_signature(writer: Writer) -> Vec<u8> {
    writer.log[3 + writer.inventor.signature.len()..].to_vec()
}

/// Payloads about the fixed parts of tags 2 to 5 (docs/SCOPE.md).
fn bad_payload(writer: &mut Writer) {
    let (tag, length) = *writer.random().pick(&[
        (2, 0),
        (3, 0),
        (3, 1),
        (3, 3),
        (3, 4),
        (4, 0),
        (4, 1),
        (5, 0),
        (5, 1),
        (5, 2),
        (5, 3),
    ]);
    let payload = match writer.random().chance(50) {
        true => vec![0; length],
        false => writer.random().bytes(length),
    };
    writer.field(tag, &payload);
}

/// Inputs of exactly 65,535 bytes, one fewer, and longer ones.
fn longest(mut random: Random) -> Vec<u8> {
    let wanted = *random.pick(&[
        MOST_INPUT,
        MOST_INPUT,
        MOST_INPUT - 1,
        65_536,
        65_537,
        66_000,
    ]);
    let signature = invent::small_signature(&mut random);
    let mut writer = Writer::new(random, signature);
    let steps = *writer.random().pick(&[5, 100, 10_000]);
    for _ in 0..steps {
        if writer.log.len() < 65_000 {
            writer.step(3, &[30, 25, 25, 20]);
        }
    }
    // The last field makes up the length; a long payload is a term of over 64 bytes.
    let length = (wanted - 3).saturating_sub(writer.log.len()).min(0xFFFF);
    let tag = writer.random().between(2, 5) as u8;
    let payload = match writer.random().chance(70) {
        true => vec![0; length],
        false => writer.random().bytes(length),
    };
    writer.field(tag, &payload);
    writer.log
}

/// P1 to P12 and the log of docs/SCOPE.md, every term against every other.
fn paper_cases(random: Random) -> Vec<u8> {
    let mut writer = Writer::new(random, vec![0, 0, 2, 1]);
    let mut terms: Vec<&str> = vec![
        "000280008000",
        "000280000003 8000",
        "000200008000",
        "8000",
        "00038000",
        "000200000001",
        "000280000001",
        "0000",
        "0001",
        "00028000000280008001",
        "0002000280008001000280018000",
        "00028000",
        "00000000",
        "",
        "0002000380008000",
    ];
    writer.random().shuffle(&mut terms);
    for term in &terms {
        writer.insert(&hexadecimal(term));
    }
    for question in &terms {
        for relation in 0..5 {
            writer.retrieve(relation, &hexadecimal(question));
        }
        for slot in 0..terms.len() {
            writer.solve(slot, &hexadecimal(question));
        }
    }
    writer.log
}

/// The bytes of a text of hexadecimal digits and blanks.
pub fn hexadecimal(text: &str) -> Vec<u8> {
    let digits: Vec<u8> = text
        .chars()
        .filter_map(|digit| digit.to_digit(16))
        .map(|digit| digit as u8)
        .collect();
    digits
        .chunks(2)
        .map(|pair| 16 * pair[0] + pair[1])
        .collect()
}
