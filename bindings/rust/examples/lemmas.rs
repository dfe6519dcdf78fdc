//! Stores three lemmas about sums, asks which of them unify with an equation, and prints how.

use azunkefogo::{Index, Item, Refusal, Relation, Slot, Variable};

/// The symbols, by their numbers in the signature: zero, suc(1), plus(2), eq(2).
const SIGNATURE: [u8; 4] = [0, 1, 2, 2];
const NAMES: [&str; 4] = ["zero", "suc", "plus", "eq"];

const ZERO: u16 = 0;
const SUC: u16 = 1;
const PLUS: u16 = 2;
const EQ: u16 = 3;
const V0: u16 = 0x8000;
const V1: u16 = 0x8001;
const V2: u16 = 0x8002;

fn bytes(items: &[u16]) -> Vec<u8> {
    items.iter().flat_map(|item| item.to_be_bytes()).collect()
}

/// The items of one of our own terms; `side` says whose its variables are.
fn read(items: &[u16], side: fn(u8) -> Variable) -> impl Iterator<Item = Item> + '_ {
    items.iter().map(move |&item| match item < V0 {
        true => Item::Symbol(item as u8),
        false => Item::Variable(side((item - V0) as u8)),
    })
}

/// The text of the term that the items begin with.
fn text(items: &mut impl Iterator<Item = Item>) -> String {
    let symbol = match items.next().expect("a whole term") {
        Item::Symbol(symbol) => usize::from(symbol),
        Item::Variable(variable) => return variable.to_string(),
    };
    let arguments: Vec<String> = (0..SIGNATURE[symbol]).map(|_| text(items)).collect();
    match arguments.is_empty() {
        true => NAMES[symbol].to_string(),
        false => format!("{}({})", NAMES[symbol], arguments.join(", ")),
    }
}

fn print_unifier(index: &Index, slot: Slot, question: &[u8]) {
    let unifier = match index.solve(slot, question) {
        Ok(unifier) => unifier,
        Err(refusal) => return println!("slot {slot}: refused with {}", refusal.number()),
    };
    println!("slot {slot}: {} bindings", unifier.fields());
    for binding in unifier.bindings() {
        println!("  {} = {}", binding.variable(), text(&mut binding.items()));
    }
}

fn main() -> Result<(), Refusal> {
    let lemmas: [&[u16]; 3] = [
        &[EQ, V0, V0],
        &[EQ, PLUS, ZERO, V0, V0],
        &[EQ, PLUS, SUC, V0, V1, SUC, PLUS, V0, V1],
    ];
    let mut index = Index::open(&SIGNATURE)?;
    for lemma in lemmas {
        let slot = index.insert(&bytes(lemma))?;
        println!(
            "slot {slot} holds {}",
            text(&mut read(lemma, Variable::Stored))
        );
    }
    let items = [EQ, PLUS, V0, SUC, V1, SUC, V2];
    println!("question {}", text(&mut read(&items, Variable::Question)));
    let question = bytes(&items);
    let found = index.retrieve(Relation::Unifiable, &question)?;
    println!(
        "{} candidates, {} answers",
        found.candidates(),
        found.answers().len()
    );
    for slot in &found {
        print_unifier(&index, slot, &question);
    }
    // the first lemma was a candidate, but no substitution makes it the question
    print_unifier(&index, Slot::from(0), &question);
    Ok(())
}
