//! docs/FORMATS.md: the offsets of every table of bytes are right, and the library answers as the document says.
mod documents;

use documents::{blocks, hex, Block};
use station::{check, flows, lines, run, Accepted, Ending, Reason, Refusal, MAX_LEVELS};

/// The bytes of a table: each line has an offset of four digits, bytes, two blanks, and what they mean.
fn bytes(block: &Block) -> Vec<u8> {
    let mut bytes = Vec::new();
    for line in &block.lines {
        let (offset, rest) = line.split_once("  ").expect("an offset");
        let (digits, _meaning) = rest.split_once("  ").expect("bytes, then their meaning");
        let offset = usize::from_str_radix(offset, 16).expect("a hexadecimal offset");
        assert_eq!(offset, bytes.len(), "offset of: {line}");
        bytes.extend(hex(digits));
    }
    bytes
}

/// Numbers of four bytes, the high byte first.
fn values(bytes: &[u8]) -> Vec<i32> {
    let (whole, rest) = bytes.as_chunks::<4>();
    assert!(rest.is_empty());
    whole.iter().map(|&four| i32::from_be_bytes(four)).collect()
}

/// The words of a list or of an answer, or in hexadecimal those of flows: each line has the number of its first word,
/// words, two blanks, and what they mean.
fn words(block: &Block, radix: u32) -> Vec<u32> {
    let mut words = Vec::new();
    for line in &block.lines {
        let (first, rest) = line.split_once("  ").expect("a word's number");
        let (some, _meaning) = rest.split_once("  ").expect("words, then their meaning");
        assert_eq!(first, words.len().to_string(), "first word of: {line}");
        let word = |text: &str| u32::from_str_radix(text, radix).expect("a word");
        words.extend(some.split_whitespace().map(word));
    }
    words
}

/// An example: the script, the values at the start, and the list if there is one.
#[derive(Default)]
struct Example {
    script: Vec<u8>,
    values: Vec<i32>,
    list: Vec<u32>,
}

/// What the program `station` prints; its list is empty.
fn printed(book: &[u8], example: &mut Example) -> Result<Vec<String>, Refusal> {
    printed_with(book, example, &mut [0; 4 * 256])
}

/// The same with another log.
fn printed_with(
    book: &[u8],
    example: &mut Example,
    log: &mut [u32],
) -> Result<Vec<String>, Refusal> {
    let Example {
        script,
        values,
        list,
    } = example;
    let accepted = check(book, script)?;
    let run = run(book, script, 0, values, 1000, list, log)?;
    let most = accepted.moves.expect("no script with a while");
    assert!(run.steps - run.instants <= most);
    let ending = match run.ending {
        Ending::Finished => "finished",
        Ending::Spent => "spent",
        _ => "log full",
    };
    let mut text = vec![format!("accepted {} {}", accepted.write, accepted.test)];
    let line = |l: station::Line| format!("{} {} {} {}", l.step, l.instant, l.name, l.value);
    text.extend(lines(log, run.lines).map(line));
    text.push(format!("{ending} {} {}", run.steps, run.instants));
    Ok(text)
}

/// The bytes of the blocks of a kind.
fn all(kind: &str) -> Vec<Vec<u8>> {
    let blocks = blocks("FORMATS.md");
    blocks
        .iter()
        .filter(|block| block.kind == kind)
        .map(bytes)
        .collect()
}

/// The examples with what the program answers: a script begins one, an answer ends it. A script with flows is none of
/// them.
fn examples() -> Vec<(Example, Vec<String>)> {
    let mut examples = Vec::new();
    let mut example = Example::default();
    for block in blocks("FORMATS.md") {
        match &block.kind[..] {
            "book" | "check" => {}
            "script" => example.script = bytes(&block),
            "values" => example.values = values(&bytes(&block)),
            "list" => example.list = words(&block, 10),
            "flows" => example = Example::default(),
            "answer" => examples.push((std::mem::take(&mut example), block.lines)),
            other => panic!("no block of the document: {other}"),
        }
    }
    examples
}

#[test]
fn scripts_are_answered_as_the_document_says() {
    let book = &all("book")[0];
    let examples = examples();
    assert_eq!(examples.len(), 6);
    assert_eq!((all("script").len(), all("values").len()), (7, 6));
    let lists = examples.iter().map(|(example, _)| example.list.len());
    assert_eq!(lists.collect::<Vec<usize>>(), [0, 4, 0, 0, 6, 0]);
    for (mut example, answer) in examples {
        assert_eq!(printed(book, &mut example), Ok(answer));
    }
}

#[test]
fn the_script_that_waits_finishes_only_with_its_list() {
    let book = &all("book")[0];
    let mut examples = examples().into_iter().map(|(example, _)| example);
    let mut example = examples
        .find(|example| example.list.len() == 6)
        .expect("the script that waits");
    printed(book, &mut example).expect("accepted");
    assert_eq!(example.values, [1, 1]);
    (example.values, example.list) = (vec![0, 0], vec![]);
    let text = printed(book, &mut example).expect("accepted");
    assert_eq!(text, ["accepted 0 0", "spent 1000 1000"]);
}

#[test]
fn the_second_emission_needs_no_room() {
    let book = &all("book")[0];
    let (example, _) = examples().pop().expect("the script that emits twice");
    let with_log_of = |words: usize| {
        let (script, values) = (example.script.clone(), example.values.clone());
        let list = vec![];
        let mut example = Example {
            script,
            values,
            list,
        };
        printed_with(book, &mut example, &mut vec![0; words]).expect("accepted")
    };
    assert_eq!(with_log_of(8).last().unwrap(), "finished 5 0");
    assert_eq!(with_log_of(4), ["accepted 0 0", "1 0 1 1", "log full 4 0"]);
    assert_eq!(with_log_of(0).last().unwrap(), "log full 0 0");
}

#[test]
fn books_are_accepted() {
    let script = &all("script")[0];
    let books = all("book");
    assert_eq!(books.len(), 3);
    for book in books {
        assert!(check(&book, script).is_ok());
    }
}

/// The script before the block of this kind, and the words of that, in decimal or hexadecimal.
fn script_with(kind: &str, radix: u32) -> (Vec<u8>, Vec<u32>) {
    let blocks = blocks("FORMATS.md");
    let mut pairs = blocks.windows(2);
    let found = pairs.find(|pair| pair[1].kind == kind);
    let pair = found.expect("a block of this kind");
    assert_eq!(pair[0].kind, "script");
    (bytes(&pair[0]), words(&pair[1], radix))
}

fn script_with_flows() -> (Vec<u8>, Vec<u32>) {
    script_with("flows", 16)
}

#[test]
fn the_answer_of_check_is_that_of_the_document() {
    let (script, words) = script_with("check", 10);
    let accepted = check(&all("book")[0], &script).expect("accepted");
    let Accepted { write, test, moves } = accepted;
    let (bounded, figure) = (moves.is_some() as u32, moves.unwrap_or(0));
    assert_eq!(words, [0, 0, write, test, bounded, figure]);
}

#[test]
fn the_figures_are_those_of_the_nodes() {
    let book = &all("book")[0];
    let figure = |(example, _): (Example, _)| check(book, &example.script).expect("accepted").moves;
    let figures: Vec<Option<u32>> = examples().into_iter().map(figure).collect();
    assert_eq!(figures, [1, 5 * 2, 4 * 2, 2, 2, 5].map(Some));
}

#[test]
fn the_flows_are_those_of_the_document() {
    let (script, words) = script_with_flows();
    assert_eq!(words.len(), MAX_LEVELS);
    let answer = flows(&script).expect("not refused");
    assert_eq!(answer.words().to_vec(), words);
}

#[test]
fn the_script_with_flows_needs_the_last_book() {
    let (script, books) = (script_with_flows().0, all("book"));
    let refusal = check(&books[1], &script).expect_err("claims side by side");
    assert_eq!((refusal.reason, refusal.place), (Reason::Flow, 2));
    let accepted = check(&books[2], &script).expect("our claim below theirs");
    assert_eq!((accepted.write, accepted.test), (2, 1));
}

#[test]
fn the_first_example_is_that_of_the_program() {
    let (mut example, _) = examples().swap_remove(0);
    assert_eq!(all("book")[0], hex("02 0003 0002"));
    assert_eq!(
        example.script,
        hex("0000FFFF 0000000000000007 0100000000000000 0004000C00145354")
    );
    let text = printed(&all("book")[0], &mut example);
    assert_eq!(
        text.expect("accepted"),
        ["accepted 0 0", "1 0 0 7", "finished 1 0"]
    );
    assert_eq!(example.values, [7]);
}
