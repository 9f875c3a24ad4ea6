//! Reads the examples of the documents: fenced blocks with a word after the fence.
use std::fs;
use std::path::Path;

/// A fenced block: the word after the fence, and the lines.
pub struct Block {
    pub kind: String,
    pub lines: Vec<String>,
}

/// The blocks of docs/`name`, in order.
pub fn blocks(name: &str) -> Vec<Block> {
    let folder = Path::new(env!("CARGO_MANIFEST_DIR")).join("../../docs");
    let text = fs::read_to_string(folder.join(name)).expect("the document can be read");
    // Every second piece between fences is a block.
    text.split("```").skip(1).step_by(2).map(block).collect()
}

fn block(text: &str) -> Block {
    let mut lines = text.lines().map(str::to_string);
    let kind = lines.next().expect("a word after the fence");
    let lines = lines.collect();
    Block { kind, lines }
}

/// Bytes from hexadecimal digits, with blanks anywhere between bytes.
pub fn hex(text: &str) -> Vec<u8> {
    let digits: String = text.split_whitespace().collect();
    let byte = |pair: &[char]| {
        let pair: String = pair.iter().collect();
        u8::from_str_radix(&pair, 16).expect("a byte in hexadecimal")
    };
    let digits: Vec<char> = digits.chars().collect();
    assert_eq!(digits.len() % 2, 0, "whole bytes: {text}");
    digits.chunks(2).map(byte).collect()
}
