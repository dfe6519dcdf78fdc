//! Invents pairs of a stored term and a question that are hard to unify: both are built
//! as lists of arguments that meet one another, and then put under common symbols.

#![allow(dead_code)]

use crate::invent::{Inventor, MOST_ITEMS};
use crate::reference::Term;

/// What meets at one place: the stored side and the question's side.
pub type Pair = (Term, Term);

/// One of the kinds below; the signature has every arity.
pub fn hard_pair(inventor: &mut Inventor) -> Pair {
    match inventor.random.weighted(&[22, 18, 22, 15, 15, 8]) {
        0 => loose_pairs(inventor),
        1 => binding_chain(inventor),
        2 => exponential(inventor),
        3 => two_towers(inventor),
        4 => {
            let items = *inventor.random.pick(&[2047, 2048, 2048, 2049, 2049, 2050]);
            sized_value(inventor, items)
        }
        _ => long_record(inventor),
    }
}

fn variable(number: usize) -> Term {
    Term::Variable(number as u16)
}

/// Puts pairs below common symbols, eight or fewer to each.
fn wrap(inventor: &mut Inventor, mut pairs: Vec<Pair>) -> Pair {
    if pairs.len() > 8 {
        let rest = wrap(inventor, pairs.split_off(7));
        pairs.push(rest);
    }
    let symbol = *inventor.random.pick(&inventor.by_arity[pairs.len()]);
    let (stored, question) = pairs.into_iter().unzip();
    (Term::Symbol(symbol, stored), Term::Symbol(symbol, question))
}

/// How many items each side of the wrapped pairs has.
fn wrapped_items(pairs: &[Pair]) -> (usize, usize) {
    let wrappers = 1 + pairs.len().saturating_sub(2) / 7;
    let stored: usize = pairs.iter().map(|pair| pair.0.items()).sum();
    let question: usize = pairs.iter().map(|pair| pair.1.items()).sum();
    (wrappers + stored, wrappers + question)
}

fn fits(pairs: &[Pair]) -> bool {
    let (stored, question) = wrapped_items(pairs);
    stored <= MOST_ITEMS && question <= MOST_ITEMS
}

/// Drops pairs from the end until both sides are terms, then wraps.
fn wrap_fitting(inventor: &mut Inventor, mut pairs: Vec<Pair>) -> Pair {
    while !fits(&pairs) {
        pairs.pop();
    }
    wrap(inventor, pairs)
}

fn swapped(pairs: Vec<Pair>) -> Vec<Pair> {
    pairs.into_iter().map(|(s, q)| (q, s)).collect()
}

/// A common symbol of `arity` over copies of one variable, as f(x,x).
fn copies(symbol: u16, arity: usize, number: usize) -> Term {
    Term::Symbol(symbol, vec![variable(number); arity])
}

/// Small random terms against small random terms.
fn loose_pairs(inventor: &mut Inventor) -> Pair {
    let mut pairs = Vec::new();
    for _ in 0..inventor.random.between(1, 12) {
        let size = inventor.random.between(1, 5);
        let left = match inventor.random.chance(50) {
            true => inventor.variable(),
            false => inventor.sized(size),
        };
        let right = match inventor.random.chance(40) {
            true => inventor.variable(),
            false => inventor.relative(&left),
        };
        pairs.push((left, right));
    }
    if inventor.random.chance(50) {
        pairs = swapped(pairs);
    }
    wrap_fitting(inventor, pairs)
}

/// x0 against g(y0), g(x1) against y0, ... : each binding needs the one before. The last pair
/// at times closes a circle that is seen only by following bindings.
fn binding_chain(inventor: &mut Inventor) -> Pair {
    let wide = *inventor.random.pick(&[0, 1, 1, 2]);
    let symbol = *inventor.random.pick(&inventor.by_arity[wide.max(1)]);
    let link = |number| match wide {
        0 => variable(number),
        _ => copies(symbol, wide, number),
    };
    let length = inventor.random.between(1, 7);
    let mut pairs = Vec::new();
    for number in 0..length {
        pairs.push((variable(number), link(number)));
        pairs.push((link(number + 1), variable(number)));
    }
    match inventor.random.below(4) {
        0 => pairs.push((variable(length), link(0))),
        1 => pairs.push((variable(length), variable(0))),
        2 => {
            let end = inventor.constant();
            pairs.push((variable(length), end));
        }
        _ => (),
    }
    inventor.random.shuffle(&mut pairs);
    wrap_fitting(inventor, pairs)
}

/// The family of document 002, section 6, for terms of at most 32 items.
fn exponential(inventor: &mut Inventor) -> Pair {
    let arity = *inventor.random.pick(&[2, 2, 3, 4, 4, 5, 6, 8]);
    let symbol = *inventor.random.pick(&inventor.by_arity[arity]);
    let mut pairs = Vec::new();
    for number in 0.. {
        let down = copies(symbol, arity, number + 1);
        pairs.push((variable(number), copies(symbol, arity, number)));
        pairs.push((down, variable(number)));
        if !fits(&pairs) {
            break;
        }
    }
    while !fits(&pairs) {
        pairs.pop();
    }
    finish_tower(inventor, &mut pairs);
    if inventor.random.chance(40) {
        inventor.random.shuffle(&mut pairs);
    }
    if inventor.random.chance(30) {
        pairs = swapped(pairs);
    }
    wrap_fitting(inventor, pairs)
}

/// At times replaces the last pair by a circle, a clash-to-be, or a plain variable.
fn finish_tower(inventor: &mut Inventor, pairs: &mut Vec<Pair>) {
    let last = match inventor.random.below(4) {
        0 => (variable(0), variable(1)),
        1 => (inventor.constant(), variable(0)),
        2 => (variable(pairs.len() / 2), variable(0)),
        _ => return,
    };
    pairs.pop();
    pairs.push(last);
}

/// Two towers x0 = f(x1,x1), x1 = f(x2,x2), ... on both sides, whose tops are made equal:
/// comparing the values item by item would take exponential time.
fn two_towers(inventor: &mut Inventor) -> Pair {
    let arity = *inventor.random.pick(&[2, 2, 3]);
    let symbol = *inventor.random.pick(&inventor.by_arity[arity]);
    let height = inventor.random.between(1, 4);
    let mut pairs = Vec::new();
    for number in 0..height {
        // Question variables 20 on carry the stored tower's values, stored ones the question's.
        pairs.push((variable(number), variable(20 + number)));
        pairs.push((copies(symbol, arity, number + 1), variable(20 + number)));
        pairs.push((variable(20 + number), copies(symbol, arity, number + 1)));
        pairs.push((variable(20 + number), variable(number)));
    }
    let top = (variable(0), variable(0));
    pairs.insert(inventor.random.below(pairs.len() + 1), top);
    if inventor.random.chance(50) {
        let ends = (inventor.constant(), variable(height));
        pairs.insert(inventor.random.below(2), ends);
        let other = (variable(height), inventor.leaf());
        pairs.insert(inventor.random.below(2), other);
    }
    wrap_fitting(inventor, pairs)
}

/// Pairs that give stored variables known value sizes, as in docs/SCOPE.md's size limit:
/// each level multiplies by its arity. Each value is (items, stored variable).
struct Ladder {
    pairs: Vec<Pair>,
    values: Vec<(usize, usize)>,
    // The sum of the items of all bound variables, and how many they are.
    items: usize,
    bound: usize,
}

/// `shared`: also make the question side's levels known to the stored side.
fn ladder(inventor: &mut Inventor, arities: &[usize], shared: bool) -> Ladder {
    let mut ladder = Ladder {
        pairs: Vec::new(),
        values: Vec::new(),
        items: 0,
        bound: 0,
    };
    let mut size = 1;
    for (level, &arity) in arities.iter().enumerate() {
        let symbol = *inventor.random.pick(&inventor.by_arity[arity]);
        size = 1 + arity * size;
        ladder.items += size;
        ladder.bound += 1;
        let number = level / 2;
        if level % 2 == 0 {
            let below = copies(symbol, arity, number);
            ladder.pairs.push((variable(number), below));
            ladder.values.push((size, number));
            continue;
        }
        let below = copies(symbol, arity, number);
        ladder.pairs.push((below, variable(number + 1)));
        if shared {
            let copy = 10 + number;
            ladder.pairs.push((variable(copy), variable(number + 1)));
            ladder.values.push((size, copy));
            ladder.items += size;
            ladder.bound += 1;
        }
    }
    ladder
}

/// The shortest term over the ladder's variables whose value has `size` items; none where
/// more than `depth` symbols would stand above each other.
fn build(
    inventor: &mut Inventor,
    size: usize,
    values: &[(usize, usize)],
    depth: usize,
) -> Option<Term> {
    if let Some(&(_, number)) = values.iter().find(|value| value.0 == size) {
        return Some(variable(number));
    }
    if size == 1 {
        return Some(inventor.constant());
    }
    if depth == 0 {
        return None;
    }
    let mut best: Option<Term> = None;
    for arity in (1..=8).filter(|&arity| arity < size) {
        let (mut arguments, left) = largest_parts(inventor, size - 1, arity, values);
        if let Some(last) = build(inventor, left, values, depth - 1) {
            arguments.push(last);
            let made = inventor.apply(arguments)?;
            if best.as_ref().map_or(true, |b| made.items() < b.items()) {
                best = Some(made);
            }
        }
    }
    best
}

/// All arguments but the last, each the largest that leaves room for those after it, and
/// how many items are left for the last.
fn largest_parts(
    inventor: &mut Inventor,
    size: usize,
    arity: usize,
    values: &[(usize, usize)],
) -> (Vec<Term>, usize) {
    let mut arguments = Vec::new();
    let mut left = size;
    for after in (1..arity).rev() {
        let usable = values.iter().filter(|value| value.0 + after <= left);
        match usable.max() {
            Some(&(items, number)) => {
                left -= items;
                arguments.push(variable(number));
            }
            None => {
                left -= 1;
                arguments.push(inventor.constant());
            }
        }
    }
    (arguments, left)
}

/// A pair that gives one variable a value of exactly `size` items, others fewer.
pub fn sized_value(inventor: &mut Inventor, size: usize) -> Pair {
    loop {
        let count = inventor.random.between(3, 4);
        let low = if count == 3 { 5 } else { 2 };
        let arities: Vec<usize> = (0..count)
            .map(|_| inventor.random.between(low, 11 - count))
            .collect();
        let shared = inventor.random.chance(70);
        let Ladder {
            mut pairs, values, ..
        } = ladder(inventor, &arities, shared);
        let Some(large) = build(inventor, size, &values, 4) else {
            continue;
        };
        pairs.push((large, variable(9)));
        if fits(&pairs) {
            return finish_sized(inventor, pairs);
        }
    }
}

fn finish_sized(inventor: &mut Inventor, mut pairs: Vec<Pair>) -> Pair {
    if inventor.random.chance(60) {
        inventor.random.shuffle(&mut pairs);
    }
    if inventor.random.chance(50) {
        pairs = swapped(pairs);
    }
    wrap(inventor, pairs)
}

/// A pair whose record is near 32,768 bytes, the log program's answer buffer: up to nine
/// variables share one large value. A field has 5 bytes and two bytes an item of its value.
pub fn long_record(inventor: &mut Inventor) -> Pair {
    let mut wanted = *inventor
        .random
        .pick(&[32_766, 32_767, 32_768, 32_768, 32_768, 32_769, 32_770]);
    for turn in 0.. {
        if turn % 500 == 499 {
            // No ladder has been found for this length; another one is.
            wanted = inventor.random.between(32_700, 34_000);
        }
        let arities: Vec<usize> = (0..3).map(|_| inventor.random.between(4, 8)).collect();
        let shared = inventor.random.chance(70);
        let mut ladder = ladder(inventor, &arities, shared);
        let sharers = inventor.random.between(8, 9);
        let Some(items) = shared_items(&ladder, wanted, sharers) else {
            continue;
        };
        let Some(large) = build(inventor, items, &ladder.values, 4) else {
            continue;
        };
        ladder.pairs.push((large, variable(16)));
        ladder.pairs.push(equal_variables(inventor, sharers));
        if fits(&ladder.pairs) {
            return finish_sized(inventor, ladder.pairs);
        }
    }
    unreachable!("the search ends only with a pair")
}

/// How many items the shared value must have for a record of `wanted` bytes, if any number
/// from 1 to 2,048 does it.
fn shared_items(ladder: &Ladder, wanted: usize, sharers: usize) -> Option<usize> {
    let values_bytes = wanted - 5 * (ladder.bound + sharers);
    let left = (values_bytes / 2).checked_sub(ladder.items)?;
    let exact = values_bytes % 2 == 0 && left % sharers == 0;
    (exact && (1..=2048).contains(&(left / sharers))).then_some(left / sharers)
}

/// Makes one stored variable and several of the question's equal, question variable 16 too.
fn equal_variables(inventor: &mut Inventor, sharers: usize) -> Pair {
    let arity = sharers - 1;
    let symbol = *inventor.random.pick(&inventor.by_arity[arity]);
    let question = (17 - arity..17).map(variable).collect();
    (copies(symbol, arity, 20), Term::Symbol(symbol, question))
}
