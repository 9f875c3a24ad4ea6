//! What an engine makes of a case, with every buffer guarded.

use crate::engine::{Engine, RunArguments, CHECK_WORDS, FLOWS_WORDS, RUN_WORDS};
use crate::guarded::Guarded;
use cases::order::MOST_LEVELS;
use cases::Case;

const BYTE_GUARD: u8 = 0xc3;
const WORD_GUARD: u32 = 0xfeed_5354;
const VALUE_GUARD: i32 = 0x7ead_beef;

/// What the words of `out` hold before a call.
const UNWRITTEN: u32 = 0xdead_c0de;

/// Everything that a caller sees after check, flows and run.
#[derive(Clone, Debug, PartialEq, Eq)]
pub struct Outcome {
    /// Number, place, W, T, bounded, moves.
    pub check: Vec<u32>,
    pub flows: Flows,
    /// Number, place, ending, steps, instants, lines.
    pub run: Vec<u32>,
    /// The moves of the run.
    pub moves: u32,
    pub values: Vec<i32>,
    pub log: Vec<u32>,
}

/// What flows gives: number and place, and a set for each level.
#[derive(Clone, Debug, PartialEq, Eq)]
pub struct Flows {
    pub out: Vec<u32>,
    pub sets: Vec<u32>,
}

impl Flows {
    /// What an engine gives for a script.
    pub fn of(engine: &dyn Engine, script: &[u8]) -> Flows {
        let mut flows = Flows {
            out: vec![UNWRITTEN; FLOWS_WORDS],
            sets: vec![UNWRITTEN; MOST_LEVELS],
        };
        engine.flows(script, &mut flows.sets, &mut flows.out);
        flows
    }

    pub fn refusal(&self) -> u32 {
        self.out[0]
    }

    /// The listed pairs: from the first level to the second.
    pub fn pairs(&self) -> impl Iterator<Item = (usize, usize)> + '_ {
        let bits = |&set: &u32| (0..u32::BITS as usize).filter(move |j| set >> j & 1 == 1);
        let sets = self.sets.iter().enumerate();
        sets.flat_map(move |(i, set)| bits(set).map(move |j| (i, j)))
    }
}

impl Outcome {
    pub fn refusal(&self) -> u32 {
        self.run[0]
    }

    pub fn ending(&self) -> u32 {
        self.run[2]
    }

    pub fn steps(&self) -> u32 {
        self.run[3]
    }

    pub fn instants(&self) -> u32 {
        self.run[4]
    }

    pub fn lines(&self) -> u32 {
        self.run[5]
    }

    pub fn accepted(&self) -> bool {
        self.check[0] == 0
    }

    /// The most moves that check says a run makes; none where not bounded.
    pub fn figure(&self) -> Option<u32> {
        (self.check[4] != 0).then_some(self.check[5])
    }
}

/// What a log holds before a run: words that no line has.
pub fn fresh_log(words: usize) -> Vec<u32> {
    (0..words as u32).map(|place| 0xa5a5_0000 ^ place).collect()
}

/// The buffers of one case.
struct Buffers {
    book: Guarded<u8>,
    script: Guarded<u8>,
    values: Guarded<i32>,
    list: Guarded<u32>,
    log: Guarded<u32>,
}

impl Buffers {
    fn new(case: &Case) -> Buffers {
        Buffers {
            book: Guarded::new(&case.book, BYTE_GUARD),
            script: Guarded::new(&case.script, BYTE_GUARD),
            values: Guarded::new(&case.values, VALUE_GUARD),
            list: Guarded::new(&case.list, WORD_GUARD),
            log: Guarded::new(&fresh_log(case.log), WORD_GUARD),
        }
    }

    /// Calls check with an `out` of `words`, and gives `out`.
    fn check(&mut self, engine: &dyn Engine, words: usize) -> Result<Vec<u32>, String> {
        let mut out = Guarded::new(&vec![UNWRITTEN; words], WORD_GUARD);
        engine.check(self.book.slice(), self.script.slice(), out.slice_mut());
        guards_hold("check", &[("out", out.intact())])?;
        Ok(out.slice().to_vec())
    }

    /// Calls flows with so many sets and an `out` of `words`, and gives both.
    fn flows(&mut self, engine: &dyn Engine, sets: usize, words: usize) -> Result<Flows, String> {
        let mut flows = Guarded::new(&vec![UNWRITTEN; sets], WORD_GUARD);
        let mut out = Guarded::new(&vec![UNWRITTEN; words], WORD_GUARD);
        engine.flows(self.script.slice(), flows.slice_mut(), out.slice_mut());
        guards_hold("flows", &[("flows", flows.intact()), ("out", out.intact())])?;
        Ok(Flows {
            out: out.slice().to_vec(),
            sets: flows.slice().to_vec(),
        })
    }

    /// Calls run with an `out` of `words`, and gives `out` and the moves.
    fn run(
        &mut self,
        engine: &dyn Engine,
        case: &Case,
        words: usize,
    ) -> Result<(Vec<u32>, u32), String> {
        let mut out = Guarded::new(&vec![UNWRITTEN; words], WORD_GUARD);
        let arguments = RunArguments {
            reader: case.reader,
            values: self.values.slice_mut(),
            limit: case.limit,
            list: self.list.slice(),
            log: self.log.slice_mut(),
        };
        let (book, script) = (self.book.slice(), self.script.slice());
        let moves = engine.run(book, script, arguments, out.slice_mut());
        guards_hold("run", &[("out", out.intact())])?;
        Ok((out.slice().to_vec(), moves))
    }

    /// Book, script and list are read only; no call writes outside a buffer.
    fn hold(&self, case: &Case, call: &str) -> Result<(), String> {
        guards_hold(
            call,
            &[
                ("book", self.book.holds(&case.book)),
                ("script", self.script.holds(&case.script)),
                ("values", self.values.intact()),
                ("list", self.list.holds(&case.list)),
                ("log", self.log.intact()),
            ],
        )
    }

    fn untouched(&self, case: &Case) -> bool {
        self.values.slice() == case.values && self.log.slice() == fresh_log(case.log)
    }
}

fn guards_hold(call: &str, buffers: &[(&str, bool)]) -> Result<(), String> {
    match buffers.iter().find(|(_, holds)| !holds) {
        Some((buffer, _)) => Err(format!("{call} wrote where it must not: {buffer}")),
        None => Ok(()),
    }
}

/// Checks and runs a case; an error says what an engine did to a buffer that it must leave.
pub fn outcome(engine: &dyn Engine, case: &Case) -> Result<Outcome, String> {
    let mut buffers = Buffers::new(case);
    let check = buffers.check(engine, CHECK_WORDS)?;
    buffers.hold(case, "check")?;
    let flows = buffers.flows(engine, MOST_LEVELS, FLOWS_WORDS)?;
    buffers.hold(case, "flows")?;
    if !buffers.untouched(case) {
        return Err("check or flows changed values or log".into());
    }
    let (run, moves) = buffers.run(engine, case, RUN_WORDS)?;
    buffers.hold(case, "run")?;
    if run[0] != 0 && !buffers.untouched(case) {
        return Err("a refused run changed values or log".into());
    }
    let written = (run[5] as usize).saturating_mul(4);
    if buffers
        .log
        .slice()
        .iter()
        .skip(written)
        .ne(fresh_log(case.log).iter().skip(written))
    {
        return Err("words after the last line changed".into());
    }
    Ok(Outcome {
        check,
        flows,
        run,
        moves,
        values: buffers.values.slice().to_vec(),
        log: buffers.log.slice().to_vec(),
    })
}

/// Calls with `out` of a wrong length, which must leave everything as it was.
pub fn wrong_out(engine: &dyn Engine, case: &Case, words: usize) -> Result<(), String> {
    let mut buffers = Buffers::new(case);
    let mut outs = vec![];
    if words != CHECK_WORDS {
        outs.extend(buffers.check(engine, words)?);
    }
    if words != RUN_WORDS {
        outs.extend(buffers.run(engine, case, words)?.0);
    }
    buffers.hold(case, "a call with a wrong out")?;
    if !buffers.untouched(case) || outs.iter().any(|&word| word != UNWRITTEN) {
        return Err(format!("an out of {words} words was not left untouched"));
    }
    Ok(())
}

/// Calls flows with so many sets and an `out` of `words`, one of them wrong, which must leave both as
/// they were.
pub fn wrong_flows(
    engine: &dyn Engine,
    case: &Case,
    sets: usize,
    words: usize,
) -> Result<(), String> {
    let mut buffers = Buffers::new(case);
    let left = buffers.flows(engine, sets, words)?;
    buffers.hold(case, "flows with a wrong buffer")?;
    match left
        .sets
        .iter()
        .chain(&left.out)
        .all(|&word| word == UNWRITTEN)
    {
        true => Ok(()),
        false => Err(format!(
            "flows of {sets} sets and an out of {words} words were not left untouched"
        )),
    }
}

#[cfg(test)]
mod tests {
    use super::*;
    use crate::engine::{Raw, Reference};
    use reference::Rules;

    /// The reference, with a change of what it leaves.
    struct Altered(fn(&mut RunArguments, &mut [u32]));

    impl Engine for Altered {
        fn check(&self, book: &[u8], script: &[u8], out: &mut [u32]) {
            Reference(Rules::default()).check(book, script, out);
        }

        fn flows(&self, script: &[u8], flows: &mut [u32], out: &mut [u32]) {
            Reference(Rules::default()).flows(script, flows, out);
        }

        fn run(
            &self,
            book: &[u8],
            script: &[u8],
            mut arguments: RunArguments,
            out: &mut [u32],
        ) -> u32 {
            let again = RunArguments {
                values: &mut *arguments.values,
                log: &mut *arguments.log,
                ..arguments
            };
            let moves = Reference(Rules::default()).run(book, script, again, out);
            (self.0)(&mut arguments, out);
            moves
        }
    }

    /// 01's example: `x := 7`.
    fn example() -> Case {
        let script = [
            0x0000_ffff_u32,
            0x0000_0000,
            0x0000_0007,
            0x0100_0000,
            0x0000_0000,
            0x0004_000c,
            0x0014_5354,
        ];
        Case {
            book: vec![2, 0, 3, 0, 2],
            script: script.iter().flat_map(|word| word.to_be_bytes()).collect(),
            reader: 0,
            values: vec![0],
            limit: 1000,
            list: vec![],
            log: 10,
        }
    }

    #[test]
    fn the_example_of_01() {
        let seen = outcome(&Raw, &example()).unwrap();
        assert_eq!(seen.check, [0, 0, 0, 0, 1, 1]);
        assert_eq!((seen.figure(), seen.moves), (Some(1), 1));
        assert_eq!(seen.flows.out, [0, 0]);
        assert_eq!(seen.flows.sets, [0; MOST_LEVELS]);
        assert_eq!(seen.run, [0, 0, 0, 1, 0, 1]);
        assert_eq!(seen.values, [7]);
        assert_eq!(seen.log[..4], [1, 0, 0, 7]);
        assert_eq!(outcome(&Altered(|_, _| ()), &example()), Ok(seen));
    }

    #[test]
    fn words_after_the_last_line_are_watched() {
        let engine = Altered(|arguments, _| arguments.log[4] = 0);
        assert!(outcome(&engine, &example()).is_err());
    }

    #[test]
    fn a_refused_run_must_leave_values_and_log() {
        let refused = Case {
            reader: 2,
            ..example()
        };
        assert!(outcome(&Altered(|_, _| ()), &refused).is_ok());
        assert!(outcome(&Altered(|arguments, _| arguments.values[0] = 1), &refused).is_err());
        assert!(outcome(&Altered(|arguments, _| arguments.log[9] = 1), &refused).is_err());
    }

    #[test]
    fn a_wrong_list_is_refused() {
        let refused = Case {
            list: vec![1, 0, 2],
            ..example()
        };
        let seen = outcome(&Raw, &refused).unwrap();
        assert_eq!(seen.run, [15, 0, 0, 0, 0, 0]);
        assert_eq!(outcome(&Altered(|_, _| ()), &refused), Ok(seen));
    }

    #[test]
    fn a_wrong_out_must_be_left() {
        for words in [0, 1, 3, 4, 5, 6, 7, 100] {
            assert_eq!(wrong_out(&Raw, &example(), words), Ok(()));
        }
        let engine = Altered(|_, out| out.iter_mut().for_each(|word| *word = 0));
        assert!(wrong_out(&engine, &example(), 5).is_err());
        let engine = Altered(|arguments, _| arguments.values[0] = 9);
        assert!(wrong_out(&engine, &example(), 0).is_err());
    }

    /// Writes the first word of buffers of any length.
    struct Careless;

    impl Engine for Careless {
        fn check(&self, _: &[u8], _: &[u8], _: &mut [u32]) {}

        fn flows(&self, _: &[u8], flows: &mut [u32], out: &mut [u32]) {
            flows.iter_mut().take(1).for_each(|set| *set = 0);
            out.iter_mut().take(1).for_each(|word| *word = 0);
        }

        fn run(&self, _: &[u8], _: &[u8], _: RunArguments, _: &mut [u32]) -> u32 {
            0
        }
    }

    #[test]
    fn wrong_flows_must_be_left() {
        let (sets, words) = (MOST_LEVELS, FLOWS_WORDS);
        for (sets, words) in [
            (0, 0),
            (0, words),
            (sets, 0),
            (sets - 1, words),
            (sets + 1, words),
            (2 * sets, words),
            (sets, words - 1),
            (sets, words + 1),
            (words, sets),
        ] {
            assert_eq!(wrong_flows(&Raw, &example(), sets, words), Ok(()));
            let careless = wrong_flows(&Careless, &example(), sets, words);
            assert_eq!(careless.is_ok(), (sets, words) == (0, 0));
        }
    }
}
