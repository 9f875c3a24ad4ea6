//! The papers' examples, against the library by both ways in and against the reference.

use crate::engine::{check_words, Engine, Raw, Reference, Wrapper, CHECK_WORDS};
use crate::outcome::{outcome, Flows};
use cases::Case;
use reference::examples::{Example, ExampleRun};
use reference::Rules;

/// Whether every engine answers an example as the papers say.
pub fn holds(example: &Example) -> Result<(), String> {
    let reference = Reference(Rules::default());
    let engines: [(&str, &dyn Engine); 3] = [
        ("library", &Raw),
        ("wrapper", &Wrapper),
        ("reference", &reference),
    ];
    for (name, engine) in engines {
        checks(engine, example).map_err(|says| format!("{name}: {says}"))?;
        flows(engine, example).map_err(|says| format!("{name}: {says}"))?;
        for run in &example.runs {
            runs(engine, example, run).map_err(|says| format!("{name}: {says}"))?;
        }
    }
    Ok(())
}

fn checks(engine: &dyn Engine, example: &Example) -> Result<(), String> {
    let mut out = [u32::MAX; CHECK_WORDS];
    engine.check(&example.book, &example.script, &mut out);
    equal("check", &out, &check_words(example.expected_check))
}

fn flows(engine: &dyn Engine, example: &Example) -> Result<(), String> {
    let Some(answer) = example.expected_flows else {
        return Ok(());
    };
    let seen = Flows::of(engine, &example.script);
    equal("flows", &seen.out, &[answer.number, answer.place])?;
    equal("sets", &seen.sets, &answer.flows)
}

fn runs(engine: &dyn Engine, example: &Example, run: &ExampleRun) -> Result<(), String> {
    let case = Case {
        book: example.book.clone(),
        script: example.script.clone(),
        reader: run.reader,
        values: run.values.clone(),
        limit: run.limit,
        list: run.list.clone(),
        log: run.log,
    };
    let seen = outcome(engine, &case)?;
    let answer = run.answer;
    let (ending, steps) = (answer.ending, answer.steps);
    let expected = [
        answer.number,
        answer.place,
        ending,
        steps,
        answer.instants,
        answer.lines,
    ];
    equal("run", &seen.run, &expected)?;
    equal("moves", &[seen.moves], &[answer.steps - answer.instants])?;
    equal("values", &seen.values, &run.values_after)?;
    let lines: Vec<u32> = run.lines.iter().flatten().copied().collect();
    equal("log", &seen.log[..lines.len().min(seen.log.len())], &lines)
}

fn equal<T: PartialEq + std::fmt::Debug>(
    what: &str,
    seen: &[T],
    expected: &[T],
) -> Result<(), String> {
    match seen == expected {
        true => Ok(()),
        false => Err(format!(
            "{what} gives {seen:?}, the papers say {expected:?}"
        )),
    }
}
