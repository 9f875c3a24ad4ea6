//! `check` and `run`: the first example, and the edges of their buffers.
use station::{check, lines, run, Accepted, Ending, Line, Reason, Run, MAX_STEPS};

/// Two levels, 0 at or below 1.
const BOOK: [u8; 5] = [0x02, 0x00, 0x03, 0x00, 0x02];

/// x := 7, with x a session register at level 0.
const SCRIPT: [u8; 28] = [
    0x00, 0x00, 0xFF, 0xFF, // name 0
    0x00, 0x00, 0x00, 0x00, 0x00, 0x00, 0x00, 0x07, // expression 0
    0x01, 0x00, 0x00, 0x00, 0x00, 0x00, 0x00, 0x00, // node 0
    0x00, 0x04, 0x00, 0x0C, 0x00, 0x14, 0x53, 0x54, // tail
];

/// nil, with no name and no expression.
const NIL: [u8; 16] = [
    0x00, 0x00, 0x00, 0x00, 0x00, 0x00, 0x00, 0x00, // node 0
    0x00, 0x00, 0x00, 0x00, 0x00, 0x08, 0x53, 0x54, // tail
];

const UNTOUCHED: u32 = 0xA5A5_A5A5;

#[test]
fn first_example() {
    let mut values = [0];
    let mut log = [UNTOUCHED; 9];
    let accepted = Accepted {
        write: 0,
        test: 0,
        moves: Some(1),
    };
    assert_eq!(check(&BOOK, &SCRIPT), Ok(accepted));
    let answer = run(&BOOK, &SCRIPT, 0, &mut values, 1000, &[], &mut log);
    let (ending, steps, instants) = (Ending::Finished, 1, 0);
    let expected = Run {
        ending,
        steps,
        instants,
        lines: 1,
    };
    assert_eq!(answer, Ok(expected));
    assert_eq!(values, [7]);
    assert_eq!(log[..4], [1, 0, 0, 7]);
    assert_eq!(log[4..], [UNTOUCHED; 5]);
}

#[test]
fn a_negative_value_is_read_as_it_was_assigned() {
    let mut script = SCRIPT;
    script[8..12].copy_from_slice(&(-7i32).to_be_bytes());
    let mut values = [0];
    let mut log = [0; 4];
    let answer = run(&BOOK, &script, 0, &mut values, 1000, &[], &mut log).expect("accepted");
    let line = Line {
        step: 1,
        instant: 0,
        name: 0,
        value: -7,
    };
    assert_eq!(values, [-7]);
    assert_eq!(lines(&log, answer.lines).collect::<Vec<_>>(), [line]);
}

#[test]
fn a_log_of_fewer_than_four_words_is_full() {
    for words in 0..4 {
        let mut values = [3];
        let mut log = vec![UNTOUCHED; words];
        let answer = run(&BOOK, &SCRIPT, 0, &mut values, 1000, &[], &mut log).expect("accepted");
        assert_eq!(answer.ending, Ending::LogFull);
        assert_eq!((answer.steps, answer.instants, answer.lines), (0, 0, 0));
        assert_eq!(values, [3]);
        assert_eq!(log, vec![UNTOUCHED; words]);
    }
}

#[test]
fn limits() {
    let at = |limit| run(&BOOK, &SCRIPT, 0, &mut [0], limit, &[], &mut [0; 4]);
    let ending = |limit| at(limit).map(|answer| answer.ending);
    assert_eq!(ending(0), Ok(Ending::Spent));
    assert_eq!(ending(MAX_STEPS), Ok(Ending::Finished));
    for limit in [MAX_STEPS + 1, u32::MAX] {
        let refusal = at(limit).expect_err("refused");
        assert_eq!((refusal.reason, refusal.place), (Reason::Limit, 0));
    }
}

#[test]
fn readers_that_are_no_level() {
    for reader in [2, 16, u32::MAX] {
        let refusal =
            run(&BOOK, &SCRIPT, reader, &mut [0], 1000, &[], &mut []).expect_err("refused");
        assert_eq!((refusal.reason, refusal.place), (Reason::Reader, 0));
    }
}

#[test]
fn empty_slices() {
    let reason = |book: &[u8], script: &[u8]| check(book, script).expect_err("refused").reason;
    assert_eq!(reason(&[], &[]), Reason::Book);
    assert_eq!(reason(&[], &SCRIPT), Reason::Book);
    assert_eq!(reason(&BOOK, &[]), Reason::Tail);
    let refusal = run(&BOOK, &SCRIPT, 0, &mut [], 1000, &[], &mut []).expect_err("refused");
    assert_eq!((refusal.reason, refusal.place), (Reason::Values, 0));
    let answer = run(&BOOK, &NIL, 0, &mut [], 0, &[], &mut []).expect("accepted");
    assert_eq!((answer.ending, answer.steps), (Ending::Finished, 0));
}

#[test]
fn lines_stop_where_the_log_ends() {
    let log = [1, 0, 0, 7, 2, 0, 1, 1, 9, 9, 9];
    assert_eq!(lines(&log, 0).count(), 0);
    assert_eq!(lines(&log, 1).count(), 1);
    assert_eq!(lines(&log, usize::MAX).count(), 2);
    assert_eq!(lines(&[], usize::MAX).count(), 0);
}

/// Damaged scripts are answered, in one way or the other.
#[test]
fn every_damage_of_one_byte_is_answered() {
    for at in 0..SCRIPT.len() {
        for byte in 0..=u8::MAX {
            let mut script = SCRIPT;
            script[at] = byte;
            let checked = check(&BOOK, &script);
            let ran = run(&BOOK, &script, 1, &mut [0], 10, &[], &mut [0; 40]);
            let refusal = ran.err().filter(|r| r.reason.number() < 12);
            assert_eq!(checked.err(), refusal);
        }
    }
}

#[test]
fn calls_may_run_at_the_same_time() {
    let call = || {
        let mut values = [0];
        let mut log = [0; 4];
        let answer = run(&BOOK, &SCRIPT, 0, &mut values, 1000, &[], &mut log);
        (answer, values, log)
    };
    let alone = call();
    std::thread::scope(|scope| {
        let threads: Vec<_> = (0..4).map(|_| scope.spawn(call)).collect();
        for thread in threads {
            assert_eq!(thread.join().expect("no panic"), alone);
        }
    });
}
