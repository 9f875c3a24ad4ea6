//! The plain interpreter answers as the library does, on the workloads and on damaged files.

use crate::measure::{agreed_check, agreed_flows, agreed_run};
use crate::workloads::{
    checks, growth, questions, runs, starts, waits, Call, Check, Question, Workload,
};

/// Pseudo-random numbers (splitmix64).
struct Rng(u64);

impl Rng {
    fn below(&mut self, n: usize) -> usize {
        self.0 = self.0.wrapping_add(0x9E37_79B9_7F4A_7C15);
        let mut z = self.0;
        z = (z ^ (z >> 30)).wrapping_mul(0xBF58_476D_1CE4_E5B9);
        z = (z ^ (z >> 27)).wrapping_mul(0x94D0_49BB_1331_11EB);
        ((z ^ (z >> 31)) % n as u64) as usize
    }

    /// Another value for one byte; mostly a small one, which is more likely to be right.
    fn damage(&mut self, bytes: &mut [u8]) {
        let at = self.below(bytes.len());
        bytes[at] = if self.below(3) == 0 {
            self.below(256) as u8
        } else {
            self.below(12) as u8
        };
    }

    /// A list of a few pairs of these signals, mostly right.
    fn list(&mut self, signals: &[u32]) -> Vec<u32> {
        let mut words = Vec::new();
        let mut instant = 1;
        for _ in 0..self.below(8) {
            instant += self.below(6) as u32;
            let falls = self.below(30) == 0;
            let name = match self.below(30) {
                0 => self.below(65) as u32,
                _ => signals[self.below(signals.len())],
            };
            words.extend([instant - falls as u32, name]);
        }
        if self.below(10) == 0 {
            words.pop();
        }
        words
    }
}

fn workloads() -> Vec<Workload> {
    let all = runs().into_iter().chain(waits()).chain(growth());
    all.chain(starts()).collect()
}

/// The session signals of a script file: kind 1, owner 65535.
fn session_signals(call: &Call) -> Vec<u32> {
    let (names, _rest) = call.script.as_chunks::<4>();
    let numbered = (0..).zip(names).take(call.values.len());
    numbered
        .filter(|(_, name)| matches!(name, [1, _, 0xFF, 0xFF]))
        .map(|(x, _)| x)
        .collect()
}

#[test]
fn workloads_agree_at_each_limit() {
    for Workload { name, mut call } in workloads() {
        call.log = call.log.min(100);
        for limit in (0..200).chain([1000, 1234, call.limit]) {
            agreed_run(&name, &call, limit);
        }
    }
}

#[test]
fn other_logs_and_readers_agree() {
    for Workload { name, mut call } in workloads() {
        for log in [0, 3, 4, 41] {
            call.log = log;
            for reader in 0..3 {
                call.reader = reader;
                agreed_run(&name, &call, 500);
            }
        }
    }
}

#[test]
fn damaged_books_agree() {
    let mut rng = Rng(1);
    for _ in 0..3000 {
        for Check {
            name,
            mut book,
            script,
            ..
        } in checks()
        {
            (0..=rng.below(3)).for_each(|_| rng.damage(&mut book));
            agreed_check(name, &book, &script);
        }
    }
}

#[test]
fn damaged_scripts_agree() {
    let mut rng = Rng(2);
    let mut bounded = std::collections::BTreeSet::new();
    for _ in 0..2000 {
        for Workload { name, mut call } in workloads() {
            (0..=rng.below(3)).for_each(|_| rng.damage(&mut call.script));
            call.log = 40;
            bounded.insert(agreed_check(&name, &call.book, &call.script)[4]);
            agreed_run(&name, &call, 200);
            agreed_flows(&name, &call.script);
        }
    }
    assert_eq!(Vec::from_iter(bounded), [0, 1]);
}

#[test]
fn flows_of_damaged_scripts_agree() {
    let mut rng = Rng(5);
    let mut numbers = std::collections::BTreeSet::new();
    for Question { name, script, .. } in questions() {
        for _ in 0..20_000 {
            let mut damaged = script.clone();
            (0..=rng.below(3)).for_each(|_| rng.damage(&mut damaged));
            numbers.insert(agreed_flows(name, &damaged).0[0]);
        }
    }
    assert_eq!(Vec::from_iter(numbers), [0, 4, 5, 6, 7, 8, 9, 10]);
}

#[test]
fn damaged_calls_agree() {
    let mut rng = Rng(3);
    for Workload { name, mut call } in workloads() {
        call.log = 8;
        for _ in 0..50 {
            let x = rng.below(call.values.len());
            let mut values = call.values.clone();
            values[x] = rng.below(4) as i32 - 1;
            values.truncate(call.values.len() - rng.below(20) / 19);
            let damaged = Call {
                book: call.book.clone(),
                script: call.script.clone(),
                list: call.list.clone(),
                values,
                ..call
            };
            agreed_run(&name, &damaged, [0, 7, 300, 1_000_001][rng.below(4)]);
        }
    }
}

#[test]
fn other_lists_agree() {
    let mut rng = Rng(4);
    let mut numbers = std::collections::BTreeSet::new();
    let with_signals = |made: &Workload| !session_signals(&made.call).is_empty();
    for Workload { name, mut call } in workloads().into_iter().filter(with_signals) {
        let signals = session_signals(&call);
        call.log = 40;
        for _ in 0..300 {
            call.list = rng.list(&signals);
            call.reader = rng.below(2) as u32;
            numbers.insert(agreed_run(&name, &call, 300)[0]);
        }
    }
    assert_eq!(Vec::from_iter(numbers), [0, 15]);
}
