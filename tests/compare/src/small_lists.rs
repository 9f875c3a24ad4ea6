//! Every small list, right or wrong, on a few small scripts.

use crate::difference::{compare, show};
use crate::engine::{Raw, Reference};
use cases::file;
use cases::list::Pair;
use cases::tree::*;
use cases::{Case, Rng};
use reference::Rules;

const A: usize = 0;
const B: usize = 1;
const REGISTER: usize = 2;
/// A signal that one of the scripts declares; a session signal of the others.
const DECLARED: usize = 3;

fn count() -> Process {
    let one = Expression::Constant(1);
    Process::Assign(REGISTER, binary(ADD, Expression::Register(REGISTER), one))
}

/// Scripts that wait for a and b, in each of the ways that the language has.
fn scripts() -> [Process; 7] {
    let nil = || Process::Nil;
    let pause = sequence(Process::Emit(DECLARED), watching(DECLARED, when(B, nil())));
    let round = sequence(when(A, count()), watching(A, when(B, nil())));
    [
        when(A, count()),
        watching(A, when(B, count())),
        when(A, watching(B, when(A, watching(A, when(B, count()))))),
        sequence(when(A, nil()), sequence(count(), when(B, count()))),
        parallel(when(A, count()), when(B, Process::Emit(A))),
        while_do(Expression::Constant(1), round),
        sequence(local(DECLARED, pause), when(A, count())),
    ]
}

fn case(root: &Process) -> Case {
    let name = |signal| Name { signal, level: 0 };
    let script = Script {
        names: [true, true, false, true].map(name).to_vec(),
        root: root.clone(),
    };
    let file = file::write_names_in_order(&script, &mut Rng::new(1));
    Case {
        book: vec![1, 0, 1],
        script: file.bytes(),
        reader: 0,
        values: vec![0; 4],
        limit: 0,
        list: vec![],
        log: 40,
    }
}

/// Every list of so many of these.
fn lists<T: Copy>(of: &[T], length: usize) -> Vec<Vec<T>> {
    let mut lists = vec![vec![]];
    for _ in 0..length {
        let longer = |list: &Vec<T>| {
            let with = |&last: &T| [&list[..], &[last]].concat();
            of.iter().map(with).collect::<Vec<_>>()
        };
        lists = lists.iter().flat_map(longer).collect();
    }
    lists
}

/// Every list of three pairs of the instants 1 to 3 and the signals a and b that does not fall.
fn three_pairs() -> Vec<Vec<u32>> {
    let names = [A as u32, B as u32];
    let pairs: Vec<Pair> = (1..=3)
        .flat_map(|instant| names.map(|name| [instant, name]))
        .collect();
    let mut all = lists(&pairs, 3);
    all.retain(|list| list.is_sorted_by_key(|pair| pair[0]));
    all.iter().map(|list| list.concat()).collect()
}

/// Every list of up to five words: each name, and one past them, in each place. Two limits are enough,
/// since most of the lists are refused.
pub fn compare_words() -> Result<u64, String> {
    let mut compared = 0;
    for list in (0..=5).flat_map(|length| lists(&[0, 1, 2, 3, 4], length)) {
        for root in &scripts() {
            compared += compare_limits(case(root), &list, &[3, 6])?;
        }
    }
    Ok(compared)
}

/// Every right list of three pairs, with every limit near its instants, and with a and b absent or present
/// at the start.
pub fn compare_pairs() -> Result<u64, String> {
    let limits: Vec<u32> = (0..12).collect();
    let mut compared = 0;
    for list in three_pairs() {
        for root in &scripts() {
            for [a, b] in [[0, 0], [0, 1], [1, 0], [1, 1]] {
                let mut case = case(root);
                (case.values[A], case.values[B]) = (a, b);
                compared += compare_limits(case, &list, &limits)?;
            }
        }
    }
    Ok(compared)
}

/// Compares runs with a list and these limits; gives how many.
fn compare_limits(mut case: Case, list: &[u32], limits: &[u32]) -> Result<u64, String> {
    case.list = list.to_vec();
    for &limit in limits {
        case.limit = limit;
        let reference = Reference(Rules::default());
        compare(&Raw, &reference, &case).map_err(|says| format!("{says}\n{}", show(&case)))?;
    }
    Ok(limits.len() as u64)
}

#[cfg(test)]
mod tests {
    use super::*;

    #[test]
    fn lists_are_counted() {
        assert_eq!(lists(&[0, 1, 2, 3, 4], 5).len(), 3125);
        assert_eq!(three_pairs().len(), 10 * 8);
        assert!(three_pairs().contains(&vec![1, 1, 1, 1, 3, 0]));
    }
}
