//! docs/REFUSALS.md: every example is answered as the document says, and no refusal is left out.
mod documents;

use documents::{blocks, hex, Block};
use station::{check, flows, raw, run, Flows, Reason, Refusal};

/// What an example gives beside book and script if it calls `run`.
#[derive(Clone)]
struct Call {
    reader: u32,
    values: Vec<i32>,
    limit: u32,
    list: Vec<u32>,
}

/// One without a book is a call of `flows`.
#[derive(Default)]
struct Example {
    book: Vec<u8>,
    script: Vec<u8>,
    call: Option<Call>,
    answer: String,
}

fn number<T: std::str::FromStr>(text: &str) -> T {
    text.parse().ok().expect("a number")
}

fn numbers<T: std::str::FromStr>(text: &str) -> Vec<T> {
    text.split_whitespace().map(number).collect()
}

/// 'reader R, values V V V, limit L', then also 'list I S I S' if it is not empty
fn call(text: &str) -> Call {
    let part = |name: &str| {
        let mut parts = text.split(", ");
        parts.find_map(|p| p.strip_prefix(name)).map(str::trim)
    };
    let needed = |name| part(name).expect("reader, values and limit");
    Call {
        reader: number(needed("reader")),
        values: numbers(needed("values")),
        limit: number(needed("limit")),
        list: part("list").map(numbers).unwrap_or_default(),
    }
}

fn example(block: &Block) -> Example {
    let mut example = Example::default();
    for line in &block.lines {
        let (line, _remark) = line.split_once('#').unwrap_or((line, ""));
        let (word, rest) = line.trim().split_once(' ').expect("a word, then more");
        match word {
            "book" => example.book.extend(hex(rest)),
            "script" => example.script.extend(hex(rest)),
            "run" => example.call = Some(call(rest.trim())),
            "refused" | "accepted" | "needs" => example.answer = line.trim().to_string(),
            other => panic!("no line of an example: {other}"),
        }
    }
    example
}

fn examples() -> Vec<Example> {
    let blocks = blocks("REFUSALS.md");
    assert!(blocks.iter().all(|block| block.kind == "example"));
    blocks.iter().map(example).collect()
}

fn needs(flows: &Flows) -> String {
    let pair = |(from, to)| format!("{from} {to}");
    let pairs: Vec<String> = flows.pairs().map(pair).collect();
    match &pairs[..] {
        [] => "needs nothing".to_string(),
        some => format!("needs {}", some.join(", ")),
    }
}

/// The refusal of an example's call, or what else the document shows: W and T, or the flows.
fn outcome(example: &Example) -> Result<String, Refusal> {
    if example.book.is_empty() {
        return flows(&example.script).map(|flows| needs(&flows));
    }
    if let Some(call) = &example.call {
        let mut values = call.values.clone();
        run(
            &example.book,
            &example.script,
            call.reader,
            &mut values,
            call.limit,
            &call.list,
            &mut [0; 64],
        )?;
    }
    let accepted = check(&example.book, &example.script)?;
    Ok(format!("accepted {} {}", accepted.write, accepted.test))
}

fn answer(example: &Example) -> String {
    outcome(example).unwrap_or_else(|refusal| {
        let number = refusal.reason.number();
        format!("refused {number} {}", refusal.place)
    })
}

#[test]
fn examples_are_answered_as_the_document_says() {
    for example in examples() {
        assert_eq!(
            answer(&example),
            example.answer,
            "script {:02X?}",
            example.script
        );
    }
}

#[test]
fn every_refusal_has_an_example_in_order() {
    // The first example is about the order of refusals and stands before its number.
    let refusals = examples()
        .into_iter()
        .skip(1)
        .filter_map(|e| outcome(&e).err());
    let mut numbers: Vec<u32> = refusals.map(|refusal| refusal.reason.number()).collect();
    numbers.dedup();
    assert_eq!(numbers, (1..=15).collect::<Vec<u32>>());
}

#[test]
fn a_refused_run_changes_neither_values_nor_log() {
    for example in examples()
        .iter()
        .filter(|e| !e.book.is_empty() && e.answer.starts_with("refused"))
    {
        let anything = Call {
            reader: 0,
            values: vec![3],
            limit: 1000,
            list: vec![],
        };
        let call = example.call.clone().unwrap_or(anything);
        let mut values = call.values.clone();
        let mut log = [0xA5A5_A5A5; 9];
        let refusal = run(
            &example.book,
            &example.script,
            call.reader,
            &mut values,
            call.limit,
            &call.list,
            &mut log,
        );
        assert_eq!(refusal.err(), outcome(example).err());
        assert_eq!(values, call.values);
        assert_eq!(log, [0xA5A5_A5A5; 9]);
    }
}

/// The words that `check` leaves, of which each was another before the call.
fn words_of_check(book: &[u8], script: &[u8]) -> [u32; raw::CHECK_WORDS] {
    let mut out = [0xA5A5_A5A5; raw::CHECK_WORDS];
    let (words, length) = (out.as_mut_ptr(), out.len());
    // SAFETY: every pointer and length is that of one live slice, and `out` overlaps neither of the others.
    unsafe {
        raw::station_check(
            book.as_ptr(),
            book.len(),
            script.as_ptr(),
            script.len(),
            words,
            length,
        );
    }
    out
}

#[test]
fn a_refused_check_leaves_number_and_place_alone() {
    for Example { book, script, .. } in examples() {
        let Err(refusal) = check(&book, &script) else {
            continue;
        };
        let expected = [refusal.reason.number(), refusal.place, 0, 0, 0, 0];
        assert_eq!(words_of_check(&book, &script), expected);
    }
}

/// A book of 16 levels, each below the next.
fn all_levels() -> Vec<u8> {
    let rows = (0..16).map(|i| u16::MAX << i);
    [16].into_iter()
        .chain(rows.flat_map(u16::to_be_bytes))
        .collect()
}

#[test]
fn flows_refuses_by_4_to_10_as_check_does_under_all_levels() {
    for Example { script, .. } in examples() {
        let checked = check(&all_levels(), &script).err();
        let expected = checked.filter(|refusal| refusal.reason != Reason::Flow);
        assert_eq!(flows(&script).err(), expected, "script {script:02X?}");
    }
}

#[test]
fn flows_differs_from_check_in_a_level_outside_the_book_alone() {
    let of_the_script = |r: &Refusal| (4..=10).contains(&r.reason.number());
    let differs = |example: &Example| {
        let refusal = outcome(example).err().filter(of_the_script);
        refusal.is_some_and(|refusal| flows(&example.script) != Err(refusal))
    };
    let differing = examples().into_iter().filter(differs);
    let answers: Vec<String> = differing.map(|example| example.answer).collect();
    assert_eq!(answers, ["refused 6 0"]);
}

#[test]
fn headings_have_the_names_of_the_reasons() {
    let folder = std::path::Path::new(env!("CARGO_MANIFEST_DIR")).join("../../docs");
    let text = std::fs::read_to_string(folder.join("REFUSALS.md")).expect("the document");
    for number in 1..=15 {
        let heading = format!("\n## {number} {}\n", Reason::from_number(number).name());
        assert!(text.contains(&heading), "missing: {heading}");
    }
}
