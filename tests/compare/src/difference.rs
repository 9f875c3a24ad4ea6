//! A case on which the library and the reference differ, and how to show it.

use crate::engine::Engine;
use crate::outcome::{outcome, Outcome};
use cases::file::File;
use cases::{text, Case};
use std::fmt;

/// What was seen, for which case, under which seed.
#[derive(Debug)]
pub struct Difference {
    pub seed: u64,
    /// In a box, since every result of the sweep has room for a difference.
    pub case: Box<Case>,
    pub says: String,
}

impl Difference {
    pub fn new(seed: u64, case: &Case, says: String) -> Difference {
        let case = Box::new(case.clone());
        Difference { seed, case, says }
    }
}

/// Compares two engines on one case; gives what both say, or how they differ.
pub fn compare(one: &dyn Engine, other: &dyn Engine, case: &Case) -> Result<Outcome, String> {
    let (first, second) = (outcome(one, case)?, outcome(other, case)?);
    if first == second {
        return Ok(first);
    }
    let mut says = String::new();
    add_unequal(&mut says, "check", &first.check, &second.check);
    if first.flows != second.flows {
        let (one, other) = (&first.flows, &second.flows);
        says += &format!("\n  flows      {:?} against {:?}", one.out, other.out);
        says += &format!(
            "\n  sets       {:04x?} against {:04x?}",
            one.sets, other.sets
        );
    }
    add_unequal(&mut says, "run", &first.run, &second.run);
    add_unequal(&mut says, "moves", &first.moves, &second.moves);
    add_unequal(&mut says, "values", &first.values, &second.values);
    if let Some(place) = (0..case.log).find(|&place| first.log[place] != second.log[place]) {
        says += &format!(
            "\n  log word {place}: {} against {}",
            first.log[place], second.log[place]
        );
    }
    Err(says)
}

/// Adds a line for what is not equal.
fn add_unequal<T: PartialEq + fmt::Debug>(says: &mut String, what: &str, one: &T, other: &T) {
    if one != other {
        *says += &format!("\n  {what:<10} {one:?} against {other:?}");
    }
}

fn hex(bytes: &[u8]) -> String {
    bytes.iter().map(|byte| format!("{byte:02x}")).collect()
}

/// A case as hexadecimal bytes and numbers, and its script as text where it can be read.
pub fn show(case: &Case) -> String {
    let Case {
        book,
        script,
        reader,
        values,
        limit,
        list,
        log,
    } = case;
    let text = File::read(script).map_or("unreadable".into(), |file| text::show(&file));
    format!(
        "  book       {}\n  script     {}\n  reads      {text}\n  reader {reader}, values {values:?}, \
         limit {limit}, list {list:?}, log of {log} words",
        hex(book),
        hex(script)
    )
}

impl fmt::Display for Difference {
    fn fmt(&self, out: &mut fmt::Formatter) -> fmt::Result {
        let Difference { seed, case, says } = self;
        write!(out, "difference, case seed {seed}: {says}\n{}", show(case))
    }
}
