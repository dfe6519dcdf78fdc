//! The reference library: docs/SCOPE.md written down a second time, as plainly as it can be.
//! Terms are trees, keys are explicit sets, every question scans every slot.

// Each program uses its own part of this module.
#![allow(dead_code)]

use std::collections::{BTreeMap, BTreeSet};
use std::ops::Range;

pub type Refusal = u32;

pub const SIG: Refusal = 2;
pub const RELATION: Refusal = 3;
pub const SLOT: Refusal = 4;
pub const SIZE: Refusal = 5;
pub const ODD: Refusal = 6;
pub const SYMBOL: Refusal = 7;
pub const SHAPE: Refusal = 8;
pub const KEY: Refusal = 9;
pub const ARG: Refusal = 10;
pub const FULL: Refusal = 11;
pub const KEYS: Refusal = 12;
pub const NONE: Refusal = 13;
pub const LONG: Refusal = 14;
pub const ROOM: Refusal = 15;

/// All numbers, the first in rank first (docs/SCOPE.md, 'Numbers of refusal').
pub const ORDER: [Refusal; 24] = [
    1, 2, 3, 21, 4, 5, 6, 7, 8, 9, 10, 17, 20, 18, 11, 12, 19, 22, 23, 24, 13, 14, 15, 16,
];

/// Of the refusals that apply the first in rank.
pub fn first_in_rank(applying: impl IntoIterator<Item = Refusal>) -> Option<Refusal> {
    let rank = |number: &Refusal| ORDER.iter().position(|placed| placed == number);
    applying
        .into_iter()
        .min_by_key(|number| rank(number).expect("a number of refusal"))
}

pub const SLOTS: usize = 512;
pub const MOST_KEYS: usize = 4096;
pub const MOST_VALUE_ITEMS: usize = 2048;
pub const MOST_TERM_BYTES: usize = 64;
pub const FIRST_VARIABLE: u16 = 0x8000;
pub const VARIABLES: u16 = 32;
pub const STAR: u16 = 0xFFFF;

/// A term of one side; variables are numbered 0 to 31 (docs/SCOPE.md, 'Term bytes').
#[derive(Clone, Debug, PartialEq, Eq)]
pub enum Term {
    Variable(u16),
    Symbol(u16, Vec<Term>),
}

impl Term {
    pub fn items(&self) -> usize {
        match self {
            Term::Variable(_) => 1,
            Term::Symbol(_, arguments) => 1 + arguments.iter().map(Term::items).sum::<usize>(),
        }
    }

    pub fn bytes(&self) -> Vec<u8> {
        let mut bytes = Vec::new();
        self.write(&mut bytes);
        bytes
    }

    fn write(&self, bytes: &mut Vec<u8>) {
        match self {
            Term::Variable(number) => push_item(bytes, FIRST_VARIABLE + number),
            Term::Symbol(symbol, arguments) => {
                push_item(bytes, *symbol);
                for argument in arguments {
                    argument.write(bytes);
                }
            }
        }
    }
}

pub fn push_item(bytes: &mut Vec<u8>, item: u16) {
    bytes.extend_from_slice(&item.to_be_bytes());
}

/// Refusal 2 (docs/SCOPE.md, 'Numbers of refusal').
pub fn check_signature(signature: &[u8]) -> Result<(), Refusal> {
    let length_fits = (1..=256).contains(&signature.len());
    if length_fits && signature.iter().all(|&arity| arity <= 8) {
        Ok(())
    } else {
        Err(SIG)
    }
}

/// Refusals 5 to 8; every item is looked at before the shape (docs/SCOPE.md).
pub fn check_term(signature: &[u8], bytes: &[u8]) -> Result<Term, Refusal> {
    if bytes.len() > MOST_TERM_BYTES {
        return Err(SIZE);
    }
    if bytes.is_empty() || bytes.len() % 2 == 1 {
        return Err(ODD);
    }
    let items: Vec<u16> = bytes.chunks(2).map(item_of).collect();
    if !items.iter().all(|&item| is_item(signature, item)) {
        return Err(SYMBOL);
    }
    let mut place = 0;
    match read_term(signature, &items, &mut place) {
        Some(term) if place == items.len() => Ok(term),
        _ => Err(SHAPE),
    }
}

fn item_of(pair: &[u8]) -> u16 {
    u16::from_be_bytes([pair[0], pair[1]])
}

fn is_symbol(signature: &[u8], item: u16) -> bool {
    usize::from(item) < signature.len()
}

fn is_item(signature: &[u8], item: u16) -> bool {
    is_symbol(signature, item) || (FIRST_VARIABLE..FIRST_VARIABLE + VARIABLES).contains(&item)
}

/// Reads one term from `place` on, or answers none when the items end inside it.
fn read_term(signature: &[u8], items: &[u16], place: &mut usize) -> Option<Term> {
    let item = *items.get(*place)?;
    *place += 1;
    if item >= FIRST_VARIABLE {
        return Some(Term::Variable(item - FIRST_VARIABLE));
    }
    let mut arguments = Vec::new();
    for _ in 0..signature[usize::from(item)] {
        arguments.push(read_term(signature, items, place)?);
    }
    Some(Term::Symbol(item, arguments))
}

/// The bytes of argument `number` within the term's own bytes; refusals 5 to 8, then 10.
pub fn argument(signature: &[u8], bytes: &[u8], number: usize) -> Result<Range<usize>, Refusal> {
    let Term::Symbol(_, arguments) = check_term(signature, bytes)? else {
        return Err(ARG);
    };
    if number == 0 || number > arguments.len() {
        return Err(ARG);
    }
    let items_before: usize = arguments[..number - 1].iter().map(Term::items).sum();
    let start = 2 * (1 + items_before);
    Ok(start..start + 2 * arguments[number - 1].items())
}

/// A key: the steps of its path and what stands at its end, none being the star
/// (docs/SCOPE.md, 'Paths and keys').
#[derive(Clone, Debug, PartialEq, Eq, PartialOrd, Ord)]
pub struct Key {
    pub path: Vec<(u16, u8)>,
    pub end: Option<u16>,
}

impl Key {
    pub fn bytes(&self) -> Vec<u8> {
        let mut bytes = Vec::new();
        for (symbol, number) in &self.path {
            push_item(&mut bytes, *symbol);
            bytes.push(*number);
        }
        push_item(&mut bytes, self.end.unwrap_or(STAR));
        bytes
    }
}

pub fn keys_of(term: &Term) -> BTreeSet<Key> {
    let mut keys = BTreeSet::new();
    collect_keys(term, &mut Vec::new(), &mut keys);
    keys
}

fn collect_keys(term: &Term, path: &mut Vec<(u16, u8)>, keys: &mut BTreeSet<Key>) {
    let end = match term {
        Term::Variable(_) => None,
        Term::Symbol(symbol, _) => Some(*symbol),
    };
    keys.insert(Key {
        path: path.clone(),
        end,
    });
    if let Term::Symbol(symbol, arguments) = term {
        for (argument, number) in arguments.iter().zip(1u8..) {
            path.push((*symbol, number));
            collect_keys(argument, path, keys);
            path.pop();
        }
    }
}

/// Refusal 9; a key without steps is a key (docs/SCOPE.md).
pub fn check_key(signature: &[u8], bytes: &[u8]) -> Result<Key, Refusal> {
    if bytes.len() < 2 || (bytes.len() - 2) % 3 != 0 || (bytes.len() - 2) / 3 > 31 {
        return Err(KEY);
    }
    let (steps, end) = bytes.split_at(bytes.len() - 2);
    let mut path = Vec::new();
    for step in steps.chunks(3) {
        let (symbol, number) = (item_of(step), step[2]);
        if !is_symbol(signature, symbol) {
            return Err(KEY);
        }
        if number == 0 || number > signature[usize::from(symbol)] {
            return Err(KEY);
        }
        path.push((symbol, number));
    }
    match item_of(end) {
        STAR => Ok(Key { path, end: None }),
        symbol if is_symbol(signature, symbol) => Ok(Key {
            path,
            end: Some(symbol),
        }),
        _ => Err(KEY),
    }
}

/// The candidate table of docs/SCOPE.md, 'Paths and keys', walking both trees.
pub fn is_candidate(relation: usize, question: &Term, stored: &Term) -> bool {
    match (question, stored) {
        (Term::Variable(_), Term::Variable(_)) => true,
        (Term::Variable(_), Term::Symbol(..)) => relation == 2 || relation == 4,
        (Term::Symbol(..), Term::Variable(_)) => relation == 3 || relation == 4,
        (Term::Symbol(left, lefts), Term::Symbol(right, rights)) => {
            let mut pairs = lefts.iter().zip(rights);
            left == right && pairs.all(|(l, r)| is_candidate(relation, l, r))
        }
    }
}

/// The relations of docs/SCOPE.md, 'The relations themselves'.
pub fn is_answer(relation: usize, question: &Term, stored: &Term) -> bool {
    match relation {
        0 => question.bytes() == stored.bytes(),
        1 => match matching(question, stored) {
            Some(binding) => binding.values().all(|v| matches!(v, Term::Variable(_))),
            None => false,
        },
        2 => matching(question, stored).is_some(),
        3 => matching(stored, question).is_some(),
        _ => Unifier::find(stored, question).is_some(),
    }
}

/// The substitution that turns `pattern` into `target`, whose variables stand still.
pub fn matching(pattern: &Term, target: &Term) -> Option<BTreeMap<u16, Term>> {
    let mut binding = BTreeMap::new();
    extend_matching(pattern, target, &mut binding).then_some(binding)
}

fn extend_matching(pattern: &Term, target: &Term, binding: &mut BTreeMap<u16, Term>) -> bool {
    match (pattern, target) {
        (Term::Variable(number), _) => {
            binding.entry(*number).or_insert_with(|| target.clone()) == target
        }
        (Term::Symbol(left, lefts), Term::Symbol(right, rights)) => {
            let mut pairs = lefts.iter().zip(rights);
            left == right && pairs.all(|(l, r)| extend_matching(l, r, binding))
        }
        (Term::Symbol(..), Term::Variable(_)) => false,
    }
}

/// One node of the graph that both terms are put into; a variable is one node however often
/// it occurs, numbered as written: stored v is v, question v is 32 + v.
#[derive(Clone)]
enum Node {
    Variable(u16),
    Symbol(u16, Vec<usize>),
}

/// A most general unifier as classes of equal nodes. Classes are merged first and looked at
/// for cycles at the end, so no value is ever expanded to decide unifiability.
pub struct Unifier {
    nodes: Vec<Node>,
    parent: Vec<usize>,
    // For a class's root: a node of the class that has a symbol, and its least variable.
    symbol_node: Vec<Option<usize>>,
    least_variable: Vec<Option<u16>>,
    variable_node: BTreeMap<u16, usize>,
    // For a class's root: how many items its value has, counted without writing it.
    value_items: BTreeMap<usize, usize>,
}

impl Unifier {
    pub fn find(stored: &Term, question: &Term) -> Option<Unifier> {
        let mut unifier = Unifier {
            nodes: Vec::new(),
            parent: Vec::new(),
            symbol_node: Vec::new(),
            least_variable: Vec::new(),
            variable_node: BTreeMap::new(),
            value_items: BTreeMap::new(),
        };
        let left = unifier.add(stored, 0);
        let right = unifier.add(question, VARIABLES);
        (unifier.merge_all(left, right) && unifier.count_all()).then_some(unifier)
    }

    /// Adds a term; `offset` keeps the two sides' variables apart.
    fn add(&mut self, term: &Term, offset: u16) -> usize {
        match term {
            Term::Variable(number) => {
                let written = number + offset;
                match self.variable_node.get(&written) {
                    Some(&node) => node,
                    None => {
                        let node = self.push(Node::Variable(written));
                        self.variable_node.insert(written, node);
                        node
                    }
                }
            }
            Term::Symbol(symbol, arguments) => {
                let nodes = arguments.iter().map(|a| self.add(a, offset)).collect();
                self.push(Node::Symbol(*symbol, nodes))
            }
        }
    }

    fn push(&mut self, node: Node) -> usize {
        let place = self.nodes.len();
        self.parent.push(place);
        match node {
            Node::Variable(written) => {
                self.symbol_node.push(None);
                self.least_variable.push(Some(written));
            }
            Node::Symbol(..) => {
                self.symbol_node.push(Some(place));
                self.least_variable.push(None);
            }
        }
        self.nodes.push(node);
        place
    }

    fn root(&self, node: usize) -> usize {
        let mut root = node;
        while self.parent[root] != root {
            root = self.parent[root];
        }
        root
    }

    /// Merges the classes of two nodes and of all that must then be equal; false at a clash.
    fn merge_all(&mut self, left: usize, right: usize) -> bool {
        let mut pairs = vec![(left, right)];
        while let Some((left, right)) = pairs.pop() {
            let (left, right) = (self.root(left), self.root(right));
            if left == right {
                continue;
            }
            if let (Some(l), Some(r)) = (self.symbol_node[left], self.symbol_node[right]) {
                match (&self.nodes[l], &self.nodes[r]) {
                    (Node::Symbol(f, fs), Node::Symbol(g, gs)) if f == g => {
                        pairs.extend(fs.iter().copied().zip(gs.iter().copied()));
                    }
                    _ => return false,
                }
            }
            self.parent[right] = left;
            self.symbol_node[left] = self.symbol_node[left].or(self.symbol_node[right]);
            let variables = [self.least_variable[left], self.least_variable[right]];
            self.least_variable[left] = variables.into_iter().flatten().min();
        }
        true
    }

    /// Counts every class's value; false where a value would hold itself.
    fn count_all(&mut self) -> bool {
        let mut open = BTreeSet::new();
        (0..self.nodes.len()).all(|node| self.count(node, &mut open).is_some())
    }

    fn count(&mut self, node: usize, open: &mut BTreeSet<usize>) -> Option<usize> {
        let root = self.root(node);
        if let Some(&items) = self.value_items.get(&root) {
            return Some(items);
        }
        if !open.insert(root) {
            return None;
        }
        let mut items: usize = 1;
        for argument in self.arguments(root) {
            items = items.saturating_add(self.count(argument, open)?);
        }
        open.remove(&root);
        self.value_items.insert(root, items);
        Some(items)
    }

    fn arguments(&self, root: usize) -> Vec<usize> {
        match self.symbol_node[root].map(|node| &self.nodes[node]) {
            Some(Node::Symbol(_, arguments)) => arguments.clone(),
            _ => Vec::new(),
        }
    }

    /// The variables that the record lists, ascending, each with its class
    /// (docs/SCOPE.md, 'The solver's record').
    pub fn listed(&self) -> Vec<(u16, usize)> {
        let mut listed = Vec::new();
        for (&written, &node) in &self.variable_node {
            let root = self.root(node);
            let stands_still =
                self.symbol_node[root].is_none() && self.least_variable[root] == Some(written);
            if !stands_still {
                listed.push((written, root));
            }
        }
        listed
    }

    pub fn items(&self, root: usize) -> usize {
        self.value_items[&root]
    }

    /// Writes out a class's value; only called for at most 2,048 items.
    fn write_value(&self, node: usize, bytes: &mut Vec<u8>) {
        let root = self.root(node);
        match self.symbol_node[root].map(|node| &self.nodes[node]) {
            Some(Node::Symbol(symbol, arguments)) => {
                push_item(bytes, *symbol);
                for &argument in arguments {
                    self.write_value(argument, bytes);
                }
            }
            _ => {
                let written = self.least_variable[root].expect("a class without symbol");
                push_item(bytes, FIRST_VARIABLE + written);
            }
        }
    }

    /// The number of fields and the record's bytes, or refusal 14.
    pub fn record(&self) -> Result<(usize, Vec<u8>), Refusal> {
        let listed = self.listed();
        if listed
            .iter()
            .any(|&(_, root)| self.items(root) > MOST_VALUE_ITEMS)
        {
            return Err(LONG);
        }
        let mut record = Vec::new();
        for &(written, root) in &listed {
            let mut payload = Vec::new();
            push_item(&mut payload, FIRST_VARIABLE + written);
            self.write_value(root, &mut payload);
            record.push(0x10);
            push_item(&mut record, payload.len() as u16);
            record.extend(payload);
        }
        Ok((listed.len(), record))
    }
}

pub struct Stored {
    pub term: Term,
    pub keys: BTreeSet<Key>,
}

/// The store: 512 slots, and for each key how many slots in use have it.
pub struct Store {
    pub signature: Vec<u8>,
    pub slots: Vec<Option<Stored>>,
    pub keys: BTreeMap<Key, usize>,
}

impl Store {
    pub fn open(signature: &[u8]) -> Result<Store, Refusal> {
        check_signature(signature)?;
        Ok(Store {
            signature: signature.to_vec(),
            slots: (0..SLOTS).map(|_| None).collect(),
            keys: BTreeMap::new(),
        })
    }

    pub fn in_use(&self) -> Vec<usize> {
        (0..SLOTS).filter(|&s| self.slots[s].is_some()).collect()
    }

    /// How many keys the store does not have yet.
    pub fn new_keys(&self, keys: &BTreeSet<Key>) -> usize {
        keys.iter().filter(|k| !self.keys.contains_key(k)).count()
    }

    /// Refusals 5 to 8, 11, 12 (docs/SCOPE.md: FULL comes first).
    pub fn insert(&mut self, bytes: &[u8]) -> Result<usize, Refusal> {
        let term = check_term(&self.signature, bytes)?;
        let slot = self.slots.iter().position(Option::is_none).ok_or(FULL)?;
        let keys = keys_of(&term);
        if self.keys.len() + self.new_keys(&keys) > MOST_KEYS {
            return Err(KEYS);
        }
        for key in &keys {
            *self.keys.entry(key.clone()).or_insert(0) += 1;
        }
        self.slots[slot] = Some(Stored { term, keys });
        Ok(slot)
    }

    pub fn delete(&mut self, slot: usize) -> Result<(), Refusal> {
        let stored = self.slots.get_mut(slot).ok_or(SLOT)?.take().ok_or(SLOT)?;
        for key in &stored.keys {
            let count = self.keys.get_mut(key).expect("a stored term's key");
            *count -= 1;
            if *count == 0 {
                self.keys.remove(key);
            }
        }
        Ok(())
    }

    pub fn stored(&self, slot: usize) -> Result<&Term, Refusal> {
        match self.slots.get(slot) {
            Some(Some(stored)) => Ok(&stored.term),
            _ => Err(SLOT),
        }
    }

    /// The slots in use whose term has the key; refusals 9 and 15.
    pub fn with_key(&self, key: &[u8], room: usize) -> Result<Vec<usize>, Refusal> {
        let key = check_key(&self.signature, key)?;
        let has_key = |s: &usize| matches!(&self.slots[*s], Some(t) if t.keys.contains(&key));
        let slots: Vec<usize> = (0..SLOTS).filter(has_key).collect();
        if 2 * slots.len() > room {
            return Err(ROOM);
        }
        Ok(slots)
    }

    /// The number of candidates and the answering slots; refusals 3, 5 to 8, 15.
    pub fn retrieve(
        &self,
        relation: usize,
        question: &[u8],
        room: usize,
    ) -> Result<(usize, Vec<usize>), Refusal> {
        if relation > 4 {
            return Err(RELATION);
        }
        let question = check_term(&self.signature, question)?;
        let mut candidates = 0;
        let mut answers = Vec::new();
        for (slot, stored) in self.slots.iter().enumerate() {
            let Some(Stored { term, .. }) = stored else {
                continue;
            };
            candidates += usize::from(is_candidate(relation, &question, term));
            if is_answer(relation, &question, term) {
                answers.push(slot);
            }
        }
        if 2 * answers.len() > room {
            return Err(ROOM);
        }
        Ok((candidates, answers))
    }

    /// The number of fields and the record; refusals 4, 5 to 8, 13, 14, 15 in that order.
    pub fn solve(
        &self,
        slot: usize,
        question: &[u8],
        room: usize,
    ) -> Result<(usize, Vec<u8>), Refusal> {
        let stored = self.stored(slot)?;
        let question = check_term(&self.signature, question)?;
        let unifier = Unifier::find(stored, &question).ok_or(NONE)?;
        let (fields, record) = unifier.record()?;
        if record.len() > room {
            return Err(ROOM);
        }
        Ok((fields, record))
    }
}

/// A listing: two bytes a slot, high first.
pub fn listing(slots: &[usize]) -> Vec<u8> {
    let mut bytes = Vec::new();
    for &slot in slots {
        push_item(&mut bytes, slot as u16);
    }
    bytes
}
