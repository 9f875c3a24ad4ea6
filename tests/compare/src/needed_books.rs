//! What a script would need, beside every book of few levels: check's refusal 11 under each of them says
//! which flows the script relies on, whatever the list of pairs says.

use crate::difference::show;
use crate::engine::{Engine, FLOWS_WORDS};
use crate::flow_claims::{check, given_for_absent_pairs, lets_through_as_much};
use crate::needed_tally::Tally;
use crate::outcome::Flows;
use crate::small_books::{Books, FEW};
use crate::sweep::case_seed;
use cases::any_levels;
use cases::file::{self, File};
use cases::{Case, Rng};
use std::fmt;

/// The most nodes of a script, so that many books let it through.
const MOST_NODES: usize = 9;

/// A script and its flows, and check's number under each book.
pub struct Asked {
    script: Vec<u8>,
    /// How many levels a book must have for the levels of the names.
    pub levels: usize,
    pub flows: Flows,
    pub numbers: Vec<u32>,
}

impl Asked {
    fn of(engine: &dyn Engine, books: &Books, script: Vec<u8>) -> Asked {
        let number = |book: &Vec<u8>| check(engine, book, &script)[0];
        let names = File::read(&script).unwrap_or_default().names;
        let levels = names.iter().map(|name| usize::from(name.level) + 1);
        Asked {
            numbers: books.bytes.iter().map(number).collect(),
            levels: levels.max().unwrap_or(0),
            flows: Flows::of(engine, &script),
            script,
        }
    }

    /// What 02 (e) says of the flows, under every book that 'has the script's levels', and of every two
    /// books; else a book, and what is wrong.
    fn holds(&self, books: &Books) -> Result<(), (usize, String)> {
        if self.flows.out != [0; FLOWS_WORDS] {
            return Err((0, format!("flows gives {:?}", self.flows.out)));
        }
        for book in books.with_levels(self.levels) {
            given_for_absent_pairs(self.numbers[book], &books.orders[book], &self.flows)
                .map_err(|says| (book, says))?;
        }
        let has_levels = |&&(smaller, _): &&(usize, usize)| books.has_levels(smaller, self.levels);
        for &(smaller, larger) in books.larger.iter().filter(has_levels) {
            lets_through_as_much(self.numbers[smaller], self.numbers[larger])
                .map_err(|says| (smaller, says))?;
        }
        Ok(())
    }
}

/// The script of a seed: a file that passes 4 to 10, with few levels.
fn script(seed: u64) -> Vec<u8> {
    let mut rng = Rng::new(seed);
    let (levels, nodes) = (rng.between(2, FEW), rng.between(1, MOST_NODES));
    let script = any_levels::script(&mut rng, levels, nodes);
    file::write(&script, &mut rng).bytes()
}

/// A script and a book of which something that 02 (e) says does not hold.
#[derive(Debug)]
pub struct Violation {
    /// The number of the script, from 1.
    pub script: u64,
    case: Box<Case>,
    says: String,
}

impl fmt::Display for Violation {
    fn fmt(&self, out: &mut fmt::Formatter) -> fmt::Result {
        let Violation { script, case, says } = self;
        write!(out, "script {script}: {says}\n{}", show(case))
    }
}

/// Asks for the flows of `count` scripts, and checks each under every book.
pub fn sweep(
    engine: &dyn Engine,
    books: &Books,
    count: u64,
    seed: u64,
) -> Result<Tally, Violation> {
    let mut tally = Tally::new(count);
    for number in 0..count {
        let asked = Asked::of(engine, books, script(case_seed(seed, number)));
        asked.holds(books).map_err(|(book, says)| Violation {
            script: number + 1,
            case: Box::new(case(&asked.script, &books.bytes[book])),
            says,
        })?;
        tally.record(&asked, books);
    }
    Ok(tally)
}

fn case(script: &[u8], book: &[u8]) -> Case {
    Case {
        book: book.to_vec(),
        script: script.to_vec(),
        reader: 0,
        values: vec![],
        limit: 0,
        list: vec![],
        log: 0,
    }
}

#[cfg(test)]
mod tests {
    use super::*;
    use crate::engine::Reference;
    use reference::Rules;

    #[test]
    fn scripts_pass_4_to_10() {
        for seed in 0..500 {
            let right = Reference(Rules::default());
            let number = check(&right, &cases::order::chain(FEW).book(), &script(seed))[0];
            assert!(matches!(number, 0 | 11), "{seed}: {number}");
        }
    }
}
