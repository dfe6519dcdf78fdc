//! Invents signatures, terms, terms derived from other terms, and malformed terms.

#![allow(dead_code)]

use crate::random::Random;
use crate::reference::{push_item, Term, FIRST_VARIABLE};
use std::collections::BTreeMap;

pub const MOST_ITEMS: usize = 32;

/// A signature that opening accepts.
pub fn signature(random: &mut Random) -> Vec<u8> {
    match random.weighted(&[35, 20, 30, 5, 5, 5]) {
        0 => small_signature(random),
        1 => every_arity(random),
        2 => {
            let length = *random.pick(&[1, 2, 3, 5, 9, 20, 60, 200, 255, 256]);
            spread_signature(random, length)
        }
        3 => {
            // No constant: only variables end a term.
            let length = random.between(1, 20);
            (0..length).map(|_| random.between(1, 8) as u8).collect()
        }
        4 => vec![0; random.between(1, 256)],
        _ => vec![random.between(0, 8) as u8; random.between(1, 256)],
    }
}

/// Few symbols, so that stored terms and questions often meet.
pub fn small_signature(random: &mut Random) -> Vec<u8> {
    let mut signature = vec![0, 0, 2, 1];
    for _ in 0..random.below(4) {
        signature.push(random.below(4) as u8);
    }
    random.shuffle(&mut signature);
    signature
}

/// Every arity from 0 to 8 at least once, in any order.
pub fn every_arity(random: &mut Random) -> Vec<u8> {
    let mut signature: Vec<u8> = (0..=8).collect();
    signature.push(0);
    for _ in 0..random.below(6) {
        signature.push(random.below(9) as u8);
    }
    random.shuffle(&mut signature);
    signature
}

pub fn spread_signature(random: &mut Random, length: usize) -> Vec<u8> {
    let weights = [30, 20, 20, 10, 5, 4, 3, 3, 5];
    (0..length)
        .map(|_| random.weighted(&weights) as u8)
        .collect()
}

/// Length 0, over 256, or some arity above 8.
pub fn bad_signature(random: &mut Random) -> Vec<u8> {
    match random.below(4) {
        0 => Vec::new(),
        1 => {
            let length = *random.pick(&[257, 258, 300, 1000]);
            spread_signature(random, length)
        }
        _ => {
            let mut bytes = signature(random);
            let place = random.below(bytes.len());
            bytes[place] = *random.pick(&[9, 10, 127, 128, 255]);
            bytes
        }
    }
}

/// What terms are made of: the signature and how many variable numbers are drawn from.
pub struct Inventor {
    pub random: Random,
    pub signature: Vec<u8>,
    pub by_arity: Vec<Vec<u16>>,
    pub pool: u16,
}

impl Inventor {
    pub fn new(mut random: Random, signature: Vec<u8>) -> Inventor {
        let mut by_arity = vec![Vec::new(); 9];
        for (symbol, &arity) in (0u16..).zip(&signature) {
            by_arity[usize::from(arity)].push(symbol);
        }
        let pool = *random.pick(&[1, 2, 2, 3, 3, 4, 6, 32]);
        Inventor {
            random,
            signature,
            by_arity,
            pool,
        }
    }

    pub fn variable(&mut self) -> Term {
        Term::Variable(self.random.below(usize::from(self.pool)) as u16)
    }

    pub fn leaf(&mut self) -> Term {
        if self.by_arity[0].is_empty() || self.random.chance(60) {
            return self.variable();
        }
        self.constant()
    }

    /// A constant; variable 0 where none is declared.
    pub fn constant(&mut self) -> Term {
        if self.by_arity[0].is_empty() {
            return Term::Variable(0);
        }
        Term::Symbol(*self.random.pick(&self.by_arity[0]), Vec::new())
    }

    /// A term with some symbol of as many arguments; none if none is declared.
    pub fn apply(&mut self, arguments: Vec<Term>) -> Option<Term> {
        let symbols = self.by_arity.get(arguments.len())?;
        if symbols.is_empty() {
            return None;
        }
        Some(Term::Symbol(*self.random.pick(symbols), arguments))
    }

    /// A term of at most 32 items, small more often than large.
    pub fn term(&mut self) -> Term {
        let most = *self.random.pick(&[1, 3, 5, 8, 12, 20, 32]);
        let size = self.random.between(1, most);
        self.sized(size)
    }

    /// A term of `size` items, or of fewer where the signature has no fitting symbols.
    pub fn sized(&mut self, size: usize) -> Term {
        let fitting: Vec<usize> = (1..=8)
            .filter(|&arity| arity < size && !self.by_arity[arity].is_empty())
            .collect();
        if fitting.is_empty() {
            return self.leaf();
        }
        let arity = *self.random.pick(&fitting);
        let mut shares = vec![1; arity];
        let mut left = size - 1 - arity;
        while left > 0 {
            let part = self.random.between(1, left);
            shares[self.random.below(arity)] += part;
            left -= part;
        }
        let arguments = shares.into_iter().map(|share| self.sized(share)).collect();
        self.apply(arguments).expect("a symbol of fitting arity")
    }

    /// Items of unary symbols above each other and a leaf; deep paths.
    pub fn chain(&mut self, size: usize) -> Term {
        let mut term = self.leaf();
        for _ in 1..size {
            term = match self.apply(vec![term.clone()]) {
                Some(longer) => longer,
                None => return term,
            };
        }
        term
    }

    /// A term near `term`, so that the relations often hold between the two.
    pub fn relative(&mut self, term: &Term) -> Term {
        let made = match self.random.weighted(&[15, 25, 25, 20, 10, 5]) {
            0 => term.clone(),
            1 => self.instance(term),
            2 => self.generalization(term),
            3 => self.renaming(term),
            4 => self.mutation(term),
            _ => {
                let wider = self.generalization(term);
                self.instance(&wider)
            }
        };
        if made.items() > MOST_ITEMS {
            return term.clone();
        }
        made
    }

    /// Replaces each variable by a small term, mostly the same one at each place.
    pub fn instance(&mut self, term: &Term) -> Term {
        let room = MOST_ITEMS - term.items().min(MOST_ITEMS);
        let most = (room / term.items()).clamp(1, 9);
        let loose = self.random.chance(15);
        self.replace(term, most, loose, &mut BTreeMap::new())
    }

    fn replace(
        &mut self,
        term: &Term,
        most: usize,
        loose: bool,
        values: &mut BTreeMap<u16, Term>,
    ) -> Term {
        match term {
            Term::Variable(number) => {
                let known = values.get(number).cloned();
                if let (Some(value), false) = (known, loose) {
                    return value;
                }
                let size = self.random.between(1, most);
                let value = self.sized(size);
                values.insert(*number, value.clone());
                value
            }
            Term::Symbol(symbol, arguments) => {
                let replaced = arguments
                    .iter()
                    .map(|argument| self.replace(argument, most, loose, values))
                    .collect();
                Term::Symbol(*symbol, replaced)
            }
        }
    }

    /// Replaces some subterms by variables, the same subterm mostly by the same variable.
    pub fn generalization(&mut self, term: &Term) -> Term {
        let percent = *self.random.pick(&[5, 15, 30, 60]);
        self.widen(term, percent, &mut Vec::new())
    }

    fn widen(&mut self, term: &Term, percent: usize, seen: &mut Vec<Term>) -> Term {
        let is_variable = matches!(term, Term::Variable(_));
        if is_variable || self.random.chance(percent) {
            let known = seen.iter().position(|other| other == term);
            let number = match known {
                Some(place) if self.random.chance(85) => place,
                _ => {
                    seen.push(term.clone());
                    seen.len() - 1
                }
            };
            return Term::Variable(number as u16 % 32);
        }
        let Term::Symbol(symbol, arguments) = term else {
            return term.clone();
        };
        let widened = arguments
            .iter()
            .map(|argument| self.widen(argument, percent, seen))
            .collect();
        Term::Symbol(*symbol, widened)
    }

    /// Renames variables, at times two to one.
    pub fn renaming(&mut self, term: &Term) -> Term {
        let mut numbers: Vec<u16> = (0..32).collect();
        self.random.shuffle(&mut numbers);
        if self.random.chance(35) {
            let names = self.random.between(1, 3) as u16;
            numbers.iter_mut().for_each(|number| *number %= names);
        }
        rename(term, &numbers)
    }

    /// Changes one item to another of the same arity.
    pub fn mutation(&mut self, term: &Term) -> Term {
        let place = self.random.below(term.items());
        self.change(term, &mut (place as isize))
    }

    fn change(&mut self, term: &Term, place: &mut isize) -> Term {
        let here = *place == 0;
        *place -= 1;
        match term {
            Term::Symbol(symbol, arguments) => {
                let changed: Vec<Term> = arguments
                    .iter()
                    .map(|argument| self.change(argument, place))
                    .collect();
                match here {
                    true if changed.is_empty() => self.leaf(),
                    true => self.apply(changed).expect("the old symbol's arity"),
                    false => Term::Symbol(*symbol, changed),
                }
            }
            Term::Variable(_) if here => self.leaf(),
            Term::Variable(_) => term.clone(),
        }
    }

    /// Bytes that mostly are no term: one to three damages to a term's bytes.
    pub fn bad_term(&mut self) -> Vec<u8> {
        if self.random.chance(8) {
            let length = self.random.between(0, 70);
            return self.random.bytes(length);
        }
        let mut bytes = self.term().bytes();
        for _ in 0..*self.random.pick(&[1, 1, 1, 2, 3]) {
            self.damage(&mut bytes);
        }
        bytes
    }

    fn damage(&mut self, bytes: &mut Vec<u8>) {
        match self.random.weighted(&[18, 14, 5, 30, 20, 20]) {
            0 => {
                let length = *self.random.pick(&[63, 64, 65, 66, 67, 68, 100, 128, 300]);
                while bytes.len() < length {
                    let item = self.leaf().bytes();
                    bytes.extend(item);
                }
                bytes.truncate(length);
            }
            1 if self.random.chance(50) => bytes.push(0),
            1 => {
                bytes.pop();
            }
            2 => bytes.clear(),
            3 => self.spoil_item(bytes),
            4 => {
                let cut = 2 * self.random.between(1, 3);
                bytes.truncate(bytes.len().saturating_sub(cut));
            }
            _ => {
                for _ in 0..self.random.between(1, 3) {
                    let item = self.leaf().bytes();
                    bytes.extend(item);
                }
            }
        }
    }

    /// Puts an item that is neither a declared symbol nor a variable, or an edge of these.
    fn spoil_item(&mut self, bytes: &mut [u8]) {
        if bytes.len() < 2 {
            return;
        }
        let place = 2 * self.random.below(bytes.len() / 2);
        let declared = self.signature.len() as u16;
        let random = self.random.next() as u16;
        let edges = [
            declared,
            declared + 1,
            declared - 1,
            0x0100,
            0x7FFF,
            FIRST_VARIABLE + 31,
            FIRST_VARIABLE + 32,
            FIRST_VARIABLE + 33,
            FIRST_VARIABLE + 63,
            0x8100,
            0xFFFF,
            random,
        ];
        let item = *self.random.pick(&edges);
        bytes[place..place + 2].copy_from_slice(&item.to_be_bytes());
    }

    /// Key bytes: of the term, random, or with one reason of refusal 9
    /// (docs/SCOPE.md, 'Numbers of refusal').
    pub fn damaged_key(&mut self, mut key: Vec<u8>) -> Vec<u8> {
        let declared = self.signature.len() as u16;
        match self.random.below(6) {
            0 => {
                key.pop();
            }
            1 => key.push(0),
            2 if key.len() >= 5 => {
                let step = 3 * self.random.below(key.len() / 3);
                let item = *self.random.pick(&[declared, 0x0100, 0x8000, 0xFFFF]);
                key[step..step + 2].copy_from_slice(&item.to_be_bytes());
            }
            3 if key.len() >= 5 => {
                let step = 3 * self.random.below(key.len() / 3);
                let symbol = u16::from_be_bytes([key[step], key[step + 1]]);
                let arity = self.signature[usize::from(symbol)];
                key[step + 2] = *self.random.pick(&[0, arity + 1, 9, 255]);
            }
            4 => {
                let end = *self
                    .random
                    .pick(&[declared, 0x0100, 0x8000, 0x801F, 0xFFFE]);
                key.truncate(key.len() - 2);
                push_item(&mut key, end);
            }
            _ => {
                let length = self.random.between(0, 110);
                key = self.random.bytes(length);
            }
        }
        key
    }

    /// A well-formed key of `steps` steps; one without steps where no symbol has arguments.
    pub fn free_key(&mut self, steps: usize) -> Vec<u8> {
        let mut key = Vec::new();
        let with_arguments: Vec<u16> = self.by_arity[1..].concat();
        for _ in 0..steps {
            if with_arguments.is_empty() {
                break;
            }
            let symbol = *self.random.pick(&with_arguments);
            push_item(&mut key, symbol);
            let arity = usize::from(self.signature[usize::from(symbol)]);
            key.push(self.random.between(1, arity) as u8);
        }
        let end = match self.random.chance(30) {
            true => 0xFFFF,
            false => self.random.below(self.signature.len()) as u16,
        };
        push_item(&mut key, end);
        key
    }
}

fn rename(term: &Term, numbers: &[u16]) -> Term {
    match term {
        Term::Variable(number) => Term::Variable(numbers[usize::from(*number)]),
        Term::Symbol(symbol, arguments) => {
            let renamed = arguments.iter().map(|a| rename(a, numbers)).collect();
            Term::Symbol(*symbol, renamed)
        }
    }
}
