//! Bytes from hex and back.

#![allow(dead_code)] // not every test uses both

/// The bytes that a text of hex digits stands for; blanks do not count.
pub fn bytes(text: &str) -> Vec<u8> {
    let digits: Vec<u32> = text
        .chars()
        .filter(|c| !c.is_whitespace())
        .map(|c| c.to_digit(16).expect("a hex digit"))
        .collect();
    digits
        .chunks_exact(2)
        .map(|pair| (16 * pair[0] + pair[1]) as u8)
        .collect()
}

pub fn text(bytes: &[u8]) -> String {
    bytes.iter().map(|byte| format!("{byte:02x}")).collect()
}
