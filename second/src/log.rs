//! Reads an operation log and says what the log program must print
//! (docs/SCOPE.md, 'The log program').

#![allow(dead_code)]

use crate::reference::{Refusal, Store};

pub const MOST_INPUT: usize = 65_535;
pub const ANSWER_BYTES: usize = 32_768;

const LOG_LINE: &str = "log no 16\n";

/// One whole field.
pub struct Field<'a> {
    pub tag: u8,
    pub payload: &'a [u8],
}

/// The field at the log's start and what follows it; none where it is cut.
pub fn next_field(log: &[u8]) -> Option<(Field<'_>, &[u8])> {
    if log.len() < 3 {
        return None;
    }
    let length = usize::from(u16::from_be_bytes([log[1], log[2]]));
    let payload = log.get(3..3 + length)?;
    let field = Field {
        tag: log[0],
        payload,
    };
    Some((field, &log[3 + length..]))
}

/// The whole output for the whole input.
pub fn replay(input: &[u8]) -> String {
    let mut output = String::new();
    if input.len() > MOST_INPUT {
        return LOG_LINE.to_string();
    }
    if input.is_empty() {
        return output;
    }
    // A first field that is cut or is no signature ends the log (readings 4 and 5).
    let (store, mut rest) = match next_field(input) {
        Some((field, rest)) if field.tag == 1 => (Store::open(field.payload), rest),
        _ => return LOG_LINE.to_string(),
    };
    let mut store = match store {
        Ok(store) => store,
        Err(refusal) => return line("open", Err(refusal)),
    };
    output += &line("open", Ok(String::new()));
    while !rest.is_empty() {
        let Some((field, after)) = next_field(rest) else {
            return output + LOG_LINE;
        };
        match answer(&mut store, &field) {
            Some(line) => output += &line,
            None => return output + LOG_LINE,
        }
        rest = after;
    }
    output
}

/// The line of one field after the first; none where the log is refused.
fn answer(store: &mut Store, field: &Field) -> Option<String> {
    let payload = field.payload;
    match field.tag {
        2 => Some(line(
            "insert",
            store.insert(payload).map(|s| format!(" {s}")),
        )),
        3 if payload.len() == 2 => {
            let slot = slot_of(payload);
            Some(line(
                "delete",
                store.delete(slot).map(|()| format!(" {slot}")),
            ))
        }
        4 if !payload.is_empty() => {
            let relation = usize::from(payload[0]);
            let found = store.retrieve(relation, &payload[1..], ANSWER_BYTES);
            Some(line("retrieve", found.map(|(c, a)| retrieve_words(c, &a))))
        }
        5 if payload.len() >= 2 => {
            let solved = store.solve(slot_of(payload), &payload[2..], ANSWER_BYTES);
            Some(line("solve", solved.map(|(f, r)| solve_words(f, &r))))
        }
        _ => None,
    }
}

fn slot_of(payload: &[u8]) -> usize {
    usize::from(u16::from_be_bytes([payload[0], payload[1]]))
}

/// Every word of an answer brings its own blank before it, so no line ends in one.
fn line(word: &str, answer: Result<String, Refusal>) -> String {
    match answer {
        Ok(words) => format!("{word} ok{words}\n"),
        Err(refusal) => format!("{word} no {refusal}\n"),
    }
}

fn retrieve_words(candidates: usize, answers: &[usize]) -> String {
    let mut words = format!(" {candidates} {}", answers.len());
    for slot in answers {
        words += &format!(" {slot}");
    }
    words
}

fn solve_words(fields: usize, record: &[u8]) -> String {
    let mut words = format!(" {fields}");
    if fields > 0 {
        words.push(' ');
        for byte in record {
            words += &format!("{byte:02x}");
        }
    }
    words
}
