//! What is measured: level books, scripts and calls.

use crate::draft::Draft;

const MOST_STEPS: u32 = 1_000_000;
/// For workloads whose steps are slow: a run should be short, so that other work on the machine does not cut into each,
/// and the call's start should still count for less than a hundredth of it.
const FEWER_STEPS: u32 = 100_000;
const FEW_STEPS: u32 = 10_000;
/// Levels of `two_levels`. The reader has the low one, so a write to a high name needs no line.
const LOW: u8 = 0;
const HIGH: u8 = 1;

/// A call of run.
pub struct Call {
    pub book: Vec<u8>,
    pub script: Vec<u8>,
    pub values: Vec<i32>,
    pub reader: u32,
    pub limit: u32,
    pub list: Vec<u32>,
    /// Words.
    pub log: usize,
}

pub struct Workload {
    pub name: String,
    pub call: Call,
}

/// A call of check.
pub struct Check {
    pub name: &'static str,
    pub book: Vec<u8>,
    pub script: Vec<u8>,
    /// The number of the refusal that it gets, or 0.
    pub refusal: u32,
}

/// A call of flows.
pub struct Question {
    pub name: &'static str,
    pub script: Vec<u8>,
    /// How many flows the script needs.
    pub pairs: u32,
}

impl Workload {
    fn with_limit(mut self, limit: u32) -> Workload {
        self.call.limit = limit;
        self
    }

    /// With a list by which the signal arrives in these instants.
    fn with_arrivals(mut self, signal: u16, instants: impl IntoIterator<Item = u32>) -> Workload {
        let pairs = instants.into_iter().map(|i| [i, signal as u32]);
        self.call.list = pairs.flatten().collect();
        self
    }
}

#[derive(Clone, Copy)]
enum Nesting {
    Left,
    Right,
}

pub fn runs() -> Vec<Workload> {
    vec![
        counting(),
        under_watchings(250).with_limit(FEWER_STEPS),
        waiting(64, Nesting::Left).with_limit(FEW_STEPS),
        waiting(64, Nesting::Right).with_limit(FEW_STEPS),
        working(1, Nesting::Left).with_limit(FEWER_STEPS),
        working(64, Nesting::Left).with_limit(FEW_STEPS),
        working(64, Nesting::Right).with_limit(FEW_STEPS),
        exchange(),
        arithmetic(),
        divisions(),
        logging(),
        repeating(),
        arriving(),
    ]
}

/// Runs that are measured as a whole: all or nearly all of their steps are instant changes, with no signal present.
pub fn waits() -> Vec<Workload> {
    vec![
        lock("wait of 1,000,000 instants for no pair", None),
        lock("wait of 900,000 instants for one pair", Some(900_000)),
    ]
}

/// The cost of a book is that of a check with a script of one node.
pub fn checks() -> Vec<Check> {
    let accepted = |name, book, script| Check {
        name,
        book,
        script,
        refusal: 0,
    };
    let of_book = |name, book| accepted(name, book, smallest());
    let falling = from_the_top(&chain());
    vec![
        of_book("check: 2 levels, one node", two_levels()),
        of_book("check: 16 levels, subsets, one node", subsets()),
        of_book("check: 16 levels, chain, one node", chain()),
        of_book("check: 16 levels, falling chain, one node", falling),
        of_book("check: 16 levels, antichain, one node", antichain()),
        Check {
            refusal: 3,
            ..of_book("check: 16 levels, refused at the last pair", refused_last())
        },
        accepted("check: 16 levels, largest file", subsets(), largest()),
    ]
}

/// Of the largest file the levels are those that its book allows; in the last one every level is tested and written.
pub fn questions() -> Vec<Question> {
    let question = |name, script, pairs| Question {
        name,
        script,
        pairs,
    };
    vec![
        question("flows: five nodes", copying(), 1),
        question("flows: largest file", largest(), 15),
        question("flows: 254 nodes, every pair of levels", every_pair(), 240),
    ]
}

/// Calls of run with step limit 0.
pub fn starts() -> Vec<Workload> {
    let mut largest = workload("run, limit 0: largest file", Draft::default(), 0);
    largest.call.book = subsets();
    largest.call.script = self::largest();
    largest.call.values = vec![0; 64];
    let mut small = counting();
    small.name = "run, limit 0: counting loop".into();
    vec![small.with_limit(0), largest.with_limit(0)]
}

pub fn growth() -> Vec<Workload> {
    let depths = [1, 10, 100, 250].map(|depth| under_watchings(depth).with_limit(FEWER_STEPS));
    let threads = |make: fn(usize, Nesting) -> Workload| {
        let sides = [Nesting::Left, Nesting::Right].into_iter();
        sides.flat_map(move |nesting| {
            [1, 8, 64].map(|count| make(count, nesting).with_limit(FEW_STEPS))
        })
    };
    depths
        .into_iter()
        .chain(threads(waiting))
        .chain(threads(working))
        .collect()
}

/// A level book from the rows' sets.
fn book(rows: &[u16]) -> Vec<u8> {
    let mut bytes = vec![rows.len() as u8];
    bytes.extend(rows.iter().flat_map(|row| row.to_be_bytes()));
    bytes
}

fn two_levels() -> Vec<u8> {
    book(&[0b11, 0b10])
}

/// The subsets of four elements, by inclusion: 16 levels, most pairs side by side.
fn subsets() -> Vec<u8> {
    let above = |i: u16| (0..16).fold(0, |row, j: u16| row | ((i & j == i) as u16) << j);
    book(&(0..16).map(above).collect::<Vec<u16>>())
}

/// 16 levels, each below the next.
fn chain() -> Vec<u8> {
    book(&(0..16).map(|i| u16::MAX << i).collect::<Vec<u16>>())
}

/// A least level, 14 levels of which none is below another, a greatest level.
fn antichain() -> Vec<u8> {
    let above = |i: u16| match i {
        0 => u16::MAX,
        15 => 1 << 15,
        _ => 1 << i | 1 << 15,
    };
    book(&(0..16).map(above).collect::<Vec<u16>>())
}

/// A chain of 14 levels below two that stand side by side, with no level above them.
fn refused_last() -> Vec<u8> {
    let above = |i: u16| match i {
        14 | 15 => 1 << i,
        _ => u16::MAX << i,
    };
    book(&(0..16).map(above).collect::<Vec<u16>>())
}

/// The book of 16 levels with its levels numbered the other way round.
fn from_the_top(bytes: &[u8]) -> Vec<u8> {
    let row = |i: usize| u16::from_be_bytes([bytes[2 * i + 1], bytes[2 * i + 2]]);
    book(
        &(0..16)
            .map(|i| row(15 - i).reverse_bits())
            .collect::<Vec<u16>>(),
    )
}

/// The script of one nil.
fn smallest() -> Vec<u8> {
    let mut draft = Draft::default();
    draft.nil();
    draft.file()
}

fn workload(name: impl Into<String>, draft: Draft, log: usize) -> Workload {
    Workload {
        name: name.into(),
        call: Call {
            book: two_levels(),
            values: vec![0; draft.counts()[0]],
            script: draft.file(),
            reader: LOW as u32,
            limit: MOST_STEPS,
            list: vec![],
            log,
        },
    }
}

/// `while x < i32::MAX do x := x + 1`: three steps a round.
fn counting() -> Workload {
    let mut draft = Draft::default();
    let x = draft.register(HIGH);
    let body = draft.increment(x);
    draft.forever(x, body);
    workload("counting loop", draft, 0)
}

/// The counting loop under so many watchings of a signal that is absent.
fn under_watchings(depth: usize) -> Workload {
    let mut draft = Draft::default();
    let (x, s) = (draft.register(HIGH), draft.signal(LOW));
    let body = draft.increment(x);
    let inner = draft.forever(x, body);
    (0..depth).fold(inner, |inner, _| draft.watching(s, inner));
    workload(format!("counting loop under {depth} watchings"), draft, 0)
}

fn nested(draft: &mut Draft, threads: &[u16], nesting: Nesting) {
    let (first, rest) = threads.split_first().expect("a thread");
    let (last, init) = threads.split_last().expect("a thread");
    match nesting {
        Nesting::Left => rest
            .iter()
            .fold(*first, |left, &thread| draft.parallel(left, thread)),
        Nesting::Right => init
            .iter()
            .rfold(*last, |right, &thread| draft.parallel(thread, right)),
    };
}

fn side(nesting: Nesting) -> &'static str {
    match nesting {
        Nesting::Left => "left",
        Nesting::Right => "right",
    }
}

/// Each thread waits for its own signal, `when s do nil`; none comes, so every step is an instant change.
fn waiting(threads: usize, nesting: Nesting) -> Workload {
    let mut draft = Draft::default();
    let nodes: Vec<u16> = (0..threads)
        .map(|_| {
            let s = draft.signal(HIGH);
            let nil = draft.nil();
            draft.when(s, nil)
        })
        .collect();
    nested(&mut draft, &nodes, nesting);
    workload(
        format!("{threads} waiting threads, nested {}", side(nesting)),
        draft,
        0,
    )
}

/// The last thread counts and waits for the next instant in each round; the others wait for signals that never come.
fn working(threads: usize, nesting: Nesting) -> Workload {
    let mut draft = Draft::default();
    let s = draft.signal(HIGH);
    let mut nodes: Vec<u16> = (1..threads)
        .map(|_| {
            let nil = draft.nil();
            draft.when(s, nil)
        })
        .collect();
    let x = draft.register(HIGH);
    let (count, pause) = (draft.increment(x), draft.pause(HIGH));
    let body = draft.sequence(count, pause);
    nodes.push(draft.forever(x, body));
    nested(&mut draft, &nodes, nesting);
    workload(
        format!("1 working thread of {threads}, nested {}", side(nesting)),
        draft,
        0,
    )
}

/// Eight threads; in each instant each emits its signal and, on the signal of the one before it, adds that one's
/// register to its own.
fn exchange() -> Workload {
    const THREADS: usize = 8;
    let mut draft = Draft::default();
    let signals: Vec<u16> = (0..THREADS).map(|_| draft.signal(HIGH)).collect();
    let registers: Vec<u16> = (0..THREADS).map(|_| draft.register(HIGH)).collect();
    let nodes: Vec<u16> = (0..THREADS)
        .map(|i| {
            let before = (i + THREADS - 1) % THREADS;
            let emit = draft.emit(signals[i]);
            let (own, other) = (draft.read(registers[i]), draft.read(registers[before]));
            let sum = draft.add(own, other);
            let take = draft.assign(registers[i], sum);
            let on_signal = draft.when(signals[before], take);
            let pause = draft.pause(HIGH);
            let rest = draft.sequence(on_signal, pause);
            let body = draft.sequence(emit, rest);
            let always = draft.constant(1);
            draft.while_do(always, body)
        })
        .collect();
    nested(&mut draft, &nodes, Nesting::Left);
    let mut made = workload("8 threads that exchange signals", draft, 0);
    made.call.values[THREADS] = 1;
    made
}

/// A loop over nested ifs with arithmetic: the test of each is `(x * k + y) / (k + 2) - x < y`.
fn arithmetic() -> Workload {
    let mut draft = Draft::default();
    let (x, y) = (draft.register(HIGH), draft.register(HIGH));
    let mut inner = draft.nil();
    for k in 1..=5 {
        let test = arithmetic_test(&mut draft, x, y, k);
        let (old, by) = (draft.read(y), draft.constant(k));
        let raised = draft.add(old, by);
        let raise = draft.assign(y, raised);
        let then = draft.sequence(raise, inner);
        let (old, two) = (draft.read(y), draft.constant(2));
        let halved = draft.divide(old, two);
        let other = draft.assign(y, halved);
        inner = draft.if_else(test, then, other);
    }
    let count = draft.increment(x);
    let body = draft.sequence(count, inner);
    draft.forever(x, body);
    workload("nested ifs and arithmetic", draft, 0)
}

fn arithmetic_test(draft: &mut Draft, x: u16, y: u16, k: i32) -> u16 {
    let (a, factor) = (draft.read(x), draft.constant(k));
    let product = draft.multiply(a, factor);
    let b = draft.read(y);
    let sum = draft.add(product, b);
    let divisor = draft.constant(k + 2);
    let quotient = draft.divide(sum, divisor);
    let c = draft.read(x);
    let difference = draft.subtract(quotient, c);
    let d = draft.read(y);
    draft.less(difference, d)
}

/// A loop of eight divisions `y := (x - y) / k`, by divisors of both signs, odd and even.
fn divisions() -> Workload {
    let mut draft = Draft::default();
    let (x, y) = (draft.register(HIGH), draft.register(HIGH));
    let mut body = draft.increment(x);
    for k in [2, -2, 3, -3, 4, -4, 5, -5] {
        let (a, b, divisor) = (draft.read(x), draft.read(y), draft.constant(k));
        let difference = draft.subtract(a, b);
        let quotient = draft.divide(difference, divisor);
        let write = draft.assign(y, quotient);
        body = draft.sequence(write, body);
    }
    draft.forever(x, body);
    workload("divisions by divisors of both signs", draft, 0)
}

/// A loop without end, of eight such writes a round.
fn eight_a_round(draft: &mut Draft, write: impl Fn(&mut Draft) -> u16) {
    let always = draft.constant(1);
    let mut body = write(draft);
    for _ in 0..7 {
        let first = write(draft);
        body = draft.sequence(first, body);
    }
    draft.while_do(always, body);
}

/// A loop of eight assignments that the reader sees; the log has room for all lines.
fn logging() -> Workload {
    let mut draft = Draft::default();
    let x = draft.register(LOW);
    eight_a_round(&mut draft, |draft| draft.increment(x));
    workload("log of every write", draft, 4 * MOST_STEPS as usize)
}

/// A loop of eight emissions of one signal that the reader sees. Only the first of all is a line: the log has room for
/// that one.
fn repeating() -> Workload {
    let mut draft = Draft::default();
    let s = draft.signal(LOW);
    eight_a_round(&mut draft, |draft| draft.emit(s));
    workload("repeated emissions", draft, 4)
}

/// `while x < i32::MAX do ((do (when never do nil) watching tilt); x := x + 1)`: counts the instants in which tilt
/// arrives, which are all but the first. Five steps an instant.
fn arriving() -> Workload {
    const INSTANTS: u32 = 10_000;
    const STEPS: u32 = 5;
    let mut draft = Draft::default();
    let (x, tilt, never) = (draft.register(HIGH), draft.signal(HIGH), draft.signal(HIGH));
    let nil = draft.nil();
    let wait = draft.when(never, nil);
    let until_tilt = draft.watching(tilt, wait);
    let count = draft.increment(x);
    let body = draft.sequence(until_tilt, count);
    draft.forever(x, body);
    workload("a pair in each of 10,000 instants", draft, 0)
        .with_limit(STEPS * INSTANTS)
        .with_arrivals(tilt, 1..=INSTANTS)
}

/// `when lock do x := 1`, with lock arriving in this instant, if in any.
fn lock(name: &str, instant: Option<u32>) -> Workload {
    let mut draft = Draft::default();
    let (x, lock) = (draft.register(HIGH), draft.signal(HIGH));
    let one = draft.constant(1);
    let set = draft.assign(x, one);
    draft.when(lock, set);
    workload(name, draft, 0).with_arrivals(lock, instant)
}

/// `(if x then y := 1 else nil); y := x`, from the low level to the high one.
fn copying() -> Vec<u8> {
    let mut draft = Draft::default();
    let (x, y) = (draft.register(LOW), draft.register(HIGH));
    let (test, one, value) = (draft.read(x), draft.constant(1), draft.read(x));
    let (set, nil) = (draft.assign(y, one), draft.nil());
    let choice = draft.if_else(test, set, nil);
    let copy = draft.assign(y, value);
    draft.sequence(choice, copy);
    draft.file()
}

/// `when s do emit s` beside each other, with signals of all levels in turn.
fn every_pair() -> Vec<u8> {
    let mut draft = Draft::default();
    let signals: Vec<u16> = (0..16).map(|level| draft.signal(level)).collect();
    let threads: Vec<u16> = signals
        .iter()
        .cycle()
        .take(85)
        .map(|&s| {
            let emit = draft.emit(s);
            draft.when(s, emit)
        })
        .collect();
    nested(&mut draft, &threads, Nesting::Left);
    draft.file()
}

/// A file of 64 names, 256 expressions and 256 nodes, with every kind of entry, accepted under `subsets`.
fn largest() -> Vec<u8> {
    let mut draft = Draft::default();
    let mut script = draft.nil();
    for level in 0..16 {
        let unit = unit(&mut draft, level);
        script = draft.parallel(script, unit);
    }
    while draft.counts()[2] < 255 {
        script = draft.watching(TESTED_SIGNAL, script);
    }
    let mut test = draft.constant(0);
    while draft.counts()[1] < 256 {
        test = draft.not(test);
    }
    draft.while_do(test, script);
    assert_eq!(draft.counts(), [64, 256, 256]);
    draft.file()
}

/// Names of the first unit. They have the least level, so that all units may test them.
const TESTED_REGISTER: u16 = 0;
const TESTED_SIGNAL: u16 = 1;

/// Four names, 15 expressions and 14 nodes: what it computes has this level, what it tests has the least.
fn unit(draft: &mut Draft, level: u8) -> u16 {
    let (x, s) = (draft.register(level), draft.signal(level));
    let (y, t) = (draft.register(level), draft.signal(0));
    let set = unit_assign(draft, x, y);
    let (a, b) = (draft.read(TESTED_REGISTER), draft.constant(-5));
    let test = draft.equal(a, b);
    let (emit, send) = (draft.emit(t), draft.emit(s));
    let choice = draft.if_else(test, set, emit);
    let on_signal = draft.when(t, send);
    let both = draft.sequence(choice, on_signal);
    let cut = draft.watching(TESTED_SIGNAL, both);
    let (c, d) = (draft.read(TESTED_REGISTER), draft.constant(9));
    let again = draft.less(c, d);
    let count = draft.increment(y);
    let round = draft.while_do(again, count);
    let nil = draft.nil();
    let last = draft.sequence(round, nil);
    let whole = draft.sequence(cut, last);
    let inner = draft.local(t, whole);
    let start = draft.read(x);
    draft.let_in(y, start, inner)
}

/// `x := x * y + 3`.
fn unit_assign(draft: &mut Draft, x: u16, y: u16) -> u16 {
    let (a, b, c) = (draft.read(x), draft.read(y), draft.constant(3));
    let product = draft.multiply(a, b);
    let sum = draft.add(product, c);
    draft.assign(x, sum)
}
