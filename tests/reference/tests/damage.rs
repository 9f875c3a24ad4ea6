//! No bytes and no fault make the interpreter panic or run on for ever.

use reference::examples::{all, Example};
use reference::{check, flows, pairs, run, Fault, Rules, RunArguments};

/// A small generator (splitmix64).
struct Random(u64);

impl Random {
    fn next(&mut self) -> u64 {
        self.0 = self.0.wrapping_add(0x9E37_79B9_7F4A_7C15);
        let mut z = self.0;
        z = (z ^ (z >> 30)).wrapping_mul(0xBF58_476D_1CE4_E5B9);
        z = (z ^ (z >> 27)).wrapping_mul(0x94D0_49BB_1331_11EB);
        z ^ (z >> 31)
    }

    fn below(&mut self, n: usize) -> usize {
        (self.next() % n as u64) as usize
    }
}

/// Small numbers are likelier to mean something than others.
fn damage(random: &mut Random, bytes: &mut [u8]) {
    if bytes.is_empty() {
        return;
    }
    let at = random.below(bytes.len());
    bytes[at] = match random.below(3) {
        0 => random.next() as u8,
        _ => random.below(12) as u8,
    };
}

fn call(rules: Rules, book: &[u8], script: &[u8], values: &[i32], list: &[u32]) {
    check(rules, book, script);
    pairs(rules, book, script);
    flows(rules, script);
    let (mut values, mut log) = (values.to_vec(), [0; 20]);
    let arguments = RunArguments {
        reader: 1,
        values: &mut values,
        limit: 40,
        list,
        log: &mut log,
    };
    run(rules, book, script, arguments);
}

/// Up to four pairs or halves of pairs, mostly of small numbers.
fn some_list(random: &mut Random) -> Vec<u32> {
    let mut word = |_| match random.below(8) {
        0 => random.next() as u32,
        1 => u32::MAX,
        _ => random.below(5) as u32,
    };
    let words: Vec<u32> = (0..8).map(&mut word).collect();
    words[..random.below(9)].to_vec()
}

fn damaged_call(random: &mut Random, rules: Rules, example: &Example) {
    let (mut book, mut script) = (example.book.clone(), example.script.clone());
    match random.below(4) {
        0 => damage(random, &mut book),
        1 => script.truncate(random.below(script.len() + 1)),
        _ => damage(random, &mut script),
    }
    let values = example.runs.last().map_or(&[][..], |run| &run.values);
    let list = some_list(random);
    call(rules, &book, &script, values, &list);
    call(rules, &example.book, &example.script, values, &list);
}

#[test]
fn damaged_files_are_answered() {
    let mut random = Random(1);
    let faults = Fault::ALL.iter().map(|&fault| Some(fault));
    let examples = all();
    for fault in faults.chain([None]) {
        for example in &examples {
            damaged_call(&mut random, Rules { fault }, example);
        }
    }
}

#[test]
fn random_bytes_are_answered() {
    let mut random = Random(2);
    for length in (0..80).cycle().take(4000) {
        let bytes: Vec<u8> = (0..length).map(|_| random.below(9) as u8).collect();
        let book = &bytes[..random.below(length + 1)];
        let list = some_list(&mut random);
        call(Rules::default(), book, &bytes, &[], &list);
        call(Rules::default(), &[2, 0, 3, 0, 2], &bytes, &[], &list);
    }
}
