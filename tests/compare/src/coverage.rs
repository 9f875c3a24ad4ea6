//! What the compared cases reached. A comparison that reaches too little of something fails.

use crate::books;
use crate::divisions;
use crate::emissions;
use crate::floors;
use crate::flows;
use crate::lists;
use crate::moves;
use crate::outcome::Outcome;
use crate::pair_levels;
use cases::damage::{self, Sort};
use cases::file::File;
use cases::Made;
use std::collections::BTreeMap;
use std::fmt;

/// Counts by what was reached, in the order of the table.
#[derive(Default)]
pub struct Coverage {
    pub cases: u64,
    counts: BTreeMap<(Topic, String), u64>,
}

#[derive(Clone, Copy, PartialEq, Eq, PartialOrd, Ord)]
enum Topic {
    Cases,
    Refusal,
    Book,
    PairLevels,
    Flows,
    FlowAt,
    Moves,
    Ending,
    Run,
    List,
    Division,
    Emission,
    Fault,
    Before,
}

/// The number of cases that the floors are stated for; others in proportion.
pub const USUAL: u64 = 60_000;

/// Every refusal, ending and kind of run in the hundreds, so that a rule that is wrong in one case of
/// twenty is still met several times.
pub const FLOOR: u64 = 200;

/// The largest files are slow, and few.
const LARGE_FLOOR: u64 = 100;

/// Each single sort of fault, answered by its own refusal: some need a part that few scripts have.
const SORT_FLOOR: u64 = 40;

/// Faults of two neighbouring refusals in one case, answered by the lower number.
const ORDER_FLOOR: u64 = 20;

const KINDS: [&str; 11] = [
    "nil", "assign", "let", "if", "while", "sequence", "emit", "local", "watching", "when",
    "parallel",
];

const ENDINGS: [&str; 3] = ["finished", "spent", "log full"];

/// What a run may show, with its floor.
const NOTES: [(&str, u64); 12] = [
    ("several instants", FLOOR),
    ("lines written", FLOOR),
    ("finished after several instants", FLOOR),
    ("limit met exactly", FLOOR),
    ("log filled exactly", FLOOR),
    ("a let or local inside a loop, several instants", FLOOR),
    ("lines for owned names", FLOOR),
    ("100 steps or more", FLOOR),
    ("100 nodes or more", FLOOR),
    ("256 nodes", LARGE_FLOOR),
    ("256 expressions", LARGE_FLOOR),
    ("64 names", LARGE_FLOOR),
];

/// Notes about cases and what was compared beside them.
pub const PAIRS_COMPARED: &str = "compared with every pair of Figure 5";
pub const WRONG_OUT: &str = "called with a wrong out";
pub const FOUR_WORDS: &str = "called with an out of the four words before 02 (f)";
pub const WRONG_FLOWS: &str = "called with wrong flows";
pub const OTHER_LEVELS: &str = "compared again with other levels";
pub const NEAR_ENDING: &str = "compared again near the ending";
pub const ENTERED_AGAIN: &str = "a local entered again while its signal was present";
const ACCEPTED: &str = "accepted";
const SEVERAL_FAULTS: &str = "several faults at once";

impl Coverage {
    fn count(&mut self, topic: Topic, what: impl Into<String>) {
        *self.counts.entry((topic, what.into())).or_default() += 1;
    }

    /// Counts the notes that were reached.
    fn count_notes(&mut self, topic: Topic, notes: &[(&str, u64)], reached: &[bool]) {
        for ((note, _), _) in notes.iter().zip(reached).filter(|(_, reached)| **reached) {
            self.count(topic, *note);
        }
    }

    /// Counts an extra comparison that belongs to a case.
    pub fn extra(&mut self, what: &str) {
        self.count(Topic::Cases, what);
    }

    pub fn record(&mut self, made: &Made, outcome: &Outcome) {
        self.cases += 1;
        if made.faults.len() > 1 {
            self.count(Topic::Cases, SEVERAL_FAULTS);
        }
        self.record_faults(&made.faults, outcome.refusal());
        if outcome.accepted() {
            self.count(Topic::Cases, ACCEPTED);
        }
        match outcome.refusal() {
            0 => self.record_run(made, outcome),
            number => self.count(Topic::Refusal, format!("{number:2}")),
        }
        if let (11, Some(file)) = (outcome.refusal(), File::read(&made.case.script)) {
            let kind = file
                .nodes
                .get(outcome.run[1] as usize)
                .map_or(0, |node| node.kind);
            self.count(
                Topic::FlowAt,
                KINDS.get(usize::from(kind)).copied().unwrap_or("?"),
            );
        }
    }

    /// Counts the faults that were answered by their own refusal, and those that hid one of the next.
    fn record_faults(&mut self, faults: &[&Sort], refusal: u32) {
        for fault in faults.iter().filter(|fault| fault.refusal == refusal) {
            self.count(Topic::Fault, sort_name(fault));
            if faults.iter().any(|other| other.refusal == refusal + 1) {
                self.count(Topic::Before, before(refusal));
            }
        }
    }

    /// Counts the sorts of a book.
    pub fn record_book(&mut self, sorts: Vec<String>) {
        sorts
            .into_iter()
            .for_each(|sort| self.count(Topic::Book, sort));
    }

    /// Counts the pairs that show in the levels of a script.
    pub fn record_pair_levels(&mut self, reached: [bool; pair_levels::NOTES.len()]) {
        self.count_notes(Topic::PairLevels, &pair_levels::NOTES, &reached);
    }

    /// Counts what the flows of a script show.
    pub fn record_flows(&mut self, notes: Vec<String>) {
        notes
            .into_iter()
            .for_each(|note| self.count(Topic::Flows, note));
    }

    /// Counts what the figure of a script and the moves of a run show.
    pub fn record_moves(&mut self, notes: Vec<&'static str>) {
        notes
            .into_iter()
            .for_each(|note| self.count(Topic::Moves, note));
    }

    /// Counts what the list of a run brought about.
    pub fn record_list(&mut self, reached: [bool; lists::NOTES.len()]) {
        self.count_notes(Topic::List, &lists::NOTES, &reached);
    }

    /// Counts what the divisions of a run brought about.
    pub fn record_divisions(&mut self, reached: [bool; divisions::NOTES.len()]) {
        self.count_notes(Topic::Division, &divisions::NOTES, &reached);
    }

    /// Counts what the emissions of a run brought about.
    pub fn record_emissions(&mut self, reached: [bool; emissions::NOTES]) {
        self.count_notes(Topic::Emission, &emissions::notes(), &reached);
    }

    /// Counts how another run of a recorded case ended.
    pub fn record_again(&mut self, made: &Made, outcome: &Outcome) {
        if outcome.refusal() == 0 {
            self.record_run(made, outcome);
        }
    }

    fn record_run(&mut self, made: &Made, outcome: &Outcome) {
        let ending = ENDINGS
            .get(outcome.ending() as usize)
            .copied()
            .unwrap_or("?");
        self.count(Topic::Ending, ending);
        let case = &made.case;
        let Some(file) = File::read(&case.script) else {
            return;
        };
        let several = outcome.instants() > 1;
        let full = 4 * outcome.lines() as usize == case.log && case.log > 0;
        let reached: [bool; NOTES.len()] = [
            several,
            outcome.lines() > 0,
            several && outcome.ending() == 0,
            outcome.steps() == case.limit && outcome.ending() == 0,
            full && outcome.ending() != 2,
            several && declares_in_a_loop(&file),
            owned_lines(&file, outcome),
            outcome.steps() >= 100,
            file.nodes.len() >= 100,
            file.nodes.len() == 256,
            file.expressions.len() == 256,
            file.names.len() == 64,
        ];
        self.count_notes(Topic::Run, &NOTES, &reached);
    }

    /// Everything that has a floor: its topic, its name, and the floor for the usual number of cases.
    fn floors() -> Vec<(Topic, String, u64)> {
        let mut all = vec![(Topic::Cases, ACCEPTED.to_string(), USUAL / 3)];
        for note in [
            PAIRS_COMPARED,
            WRONG_OUT,
            FOUR_WORDS,
            WRONG_FLOWS,
            OTHER_LEVELS,
            NEAR_ENDING,
            SEVERAL_FAULTS,
            ENTERED_AGAIN,
        ] {
            all.push((Topic::Cases, note.to_string(), FLOOR));
        }
        all.extend((1..=15).map(|number| (Topic::Refusal, format!("{number:2}"), FLOOR)));
        let books = books::floors().into_iter();
        all.extend(books.map(|(sort, floor)| (Topic::Book, sort, floor)));
        all.extend(
            pair_levels::NOTES.map(|(note, floor)| (Topic::PairLevels, note.to_string(), floor)),
        );
        let flows = flows::floors().into_iter();
        all.extend(flows.map(|(note, floor)| (Topic::Flows, note, floor)));
        let needs = [1, 2, 3, 4, 5, 8, 9, 10].map(|kind: usize| KINDS[kind]);
        all.extend(needs.map(|kind| (Topic::FlowAt, kind.to_string(), SORT_FLOOR)));
        let moves = moves::floors().into_iter();
        all.extend(moves.map(|(note, floor)| (Topic::Moves, note.to_string(), floor)));
        all.extend(ENDINGS.map(|ending| (Topic::Ending, ending.to_string(), FLOOR)));
        all.extend(NOTES.map(|(note, floor)| (Topic::Run, note.to_string(), floor)));
        all.extend(lists::NOTES.map(|(note, floor)| (Topic::List, note.to_string(), floor)));
        all.extend(
            divisions::NOTES.map(|(note, floor)| (Topic::Division, note.to_string(), floor)),
        );
        all.extend(
            emissions::notes().map(|(note, floor)| (Topic::Emission, note.to_string(), floor)),
        );
        all.extend(damage::sorts().map(|sort| (Topic::Fault, sort_name(sort), SORT_FLOOR)));
        all.extend((1..15).map(|refusal| (Topic::Before, before(refusal), ORDER_FLOOR)));
        all
    }

    /// What was reached too seldom.
    pub fn missing(&self) -> Vec<String> {
        let too_few = |(topic, what, floor): (Topic, String, u64)| {
            let floor = floors::floor(floor, self.cases, USUAL);
            let seen = self
                .counts
                .get(&(topic, what.clone()))
                .copied()
                .unwrap_or(0);
            (seen < floor).then(|| format!("{} {what}: {seen} of at least {floor}", title(topic)))
        };
        Coverage::floors().into_iter().filter_map(too_few).collect()
    }

    /// How many things have a floor.
    pub fn floor_count() -> usize {
        Coverage::floors().len()
    }
}

fn sort_name(sort: &Sort) -> String {
    format!("{:2} {}", sort.refusal, sort.says)
}

fn before(refusal: u32) -> String {
    format!("{refusal:2} before {}", refusal + 1)
}

/// Whether a declaration lies in the body of a loop; the file is a checked one.
pub fn declares_in_a_loop(file: &File) -> bool {
    let mut inside = vec![false; file.nodes.len()];
    for (place, node) in file.nodes.iter().enumerate().rev() {
        for &field in File::child_fields(node.kind) {
            inside[node.field(field)] = inside[place] || node.kind == 4;
        }
    }
    let declares = |place: usize| matches!(file.nodes[place].kind, 2 | 7);
    (0..file.nodes.len()).any(|place| inside[place] && declares(place))
}

fn owned_lines(file: &File, outcome: &Outcome) -> bool {
    let owned = |name: u32| file.names[name as usize].owner != cases::file::SESSION;
    let lines = outcome.log.chunks_exact(4).take(outcome.lines() as usize);
    lines.into_iter().any(|line| owned(line[2]))
}

fn title(topic: Topic) -> &'static str {
    match topic {
        Topic::Cases => "cases",
        Topic::Refusal => "refusal",
        Topic::Book => "level book",
        Topic::PairLevels => "levels of a script",
        Topic::Flows => "flows",
        Topic::FlowAt => "refusal 11 at",
        Topic::Moves => "moves",
        Topic::Ending => "ending",
        Topic::Run => "run",
        Topic::List => "list",
        Topic::Division => "division",
        Topic::Emission => "line or repeat",
        Topic::Fault => "fault answered by its refusal",
        Topic::Before => "faults of two refusals at once",
    }
}

impl fmt::Display for Coverage {
    fn fmt(&self, out: &mut fmt::Formatter) -> fmt::Result {
        for ((topic, what), count) in &self.counts {
            let what = format!("{}: {what}", title(*topic));
            writeln!(out, "  {what:<72} {count:>8}")?;
        }
        Ok(())
    }
}
