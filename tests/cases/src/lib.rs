//! Seeded random cases for the comparison: level books, script files, values, readers, limits, lists
//! and logs; right ones, refused ones and damaged ones.
#![forbid(unsafe_code)]

pub mod any_levels;
pub mod damage;
pub mod file;
pub mod grow;
pub mod list;
pub mod order;
mod rng;
mod shapes;
pub mod text;
pub mod tree;
pub mod turns;
mod two_levels;

use damage::{Draft, Sort};
use file::{File, SESSION};
use grow::{Careless, Rule, Style};
use order::Lattice;
pub use rng::Rng;
use std::collections::BTreeSet;
use tree::Script;

/// The arguments of one call of run, and of check by its first two.
#[derive(Clone, Debug)]
pub struct Case {
    pub book: Vec<u8>,
    pub script: Vec<u8>,
    pub reader: u32,
    pub values: Vec<i32>,
    pub limit: u32,
    /// Two words to a pair: instant, then name.
    pub list: Vec<u32>,
    /// The log's length in words.
    pub log: usize,
}

/// A case with the sorts of faults that were put into it.
#[derive(Clone)]
pub struct Made {
    pub case: Case,
    pub faults: Vec<&'static Sort>,
    /// Nothing was damaged: the only refusal that is left is 11.
    pub well_formed: bool,
}

/// A random case: well formed, refused or damaged.
pub fn case(rng: &mut Rng) -> Case {
    made(rng).case
}

/// A random case, with what is wrong with it.
pub fn made(rng: &mut Rng) -> Made {
    let mut draft = draft(rng);
    let mut faults = vec![];
    let mut well_formed = false;
    match rng.below(100) {
        0..=54 => well_formed = true,
        55..=87 => faults = damaged(&mut draft, rng, 1),
        88..=94 => {
            let several = rng.between(2, 4);
            faults = damaged(&mut draft, rng, several);
        }
        95..=98 => damage::changed_bytes(&mut draft, rng),
        _ => damage::random_bytes(&mut draft, rng),
    }
    Made {
        case: draft.finish(),
        faults,
        well_formed,
    }
}

/// A well-formed case that is likely to be accepted and to run over several instants.
pub fn accepted_leaning(rng: &mut Rng) -> Case {
    let lattice = order::some_levels(rng);
    let style = Style {
        nodes: rng.between(8, 45),
        session_names: rng.between(3, 12),
        mixed: true,
        careless: if rng.chance(1, 2) {
            Some(careless(rng))
        } else {
            None
        },
    };
    let script = grow::script(rng, &lattice, style);
    let mut draft = with_inputs(rng, lattice, script);
    draft.limit = rng.between(1, 400) as u32;
    draft.log = if rng.chance(1, 3) {
        rng.below(60)
    } else {
        2000
    };
    draft.finish()
}

/// Carelessness about one rule.
fn careless(rng: &mut Rng) -> Careless {
    Careless {
        rule: Rule::ALL[rng.below(Rule::ALL.len())],
        one_in: rng.between(1, 3),
    }
}

/// A well-formed case. Few scripts make more moves than they have nodes unless their threads take turns.
fn draft(rng: &mut Rng) -> Draft {
    let lattice = order::lattice(rng);
    match rng.chance(1, 24) {
        true => turns::drawn::draft(rng, lattice),
        false => any_draft(rng, lattice),
    }
}

fn any_draft(rng: &mut Rng, lattice: Lattice) -> Draft {
    let shape = rng.below(100);
    // A wait of hundreds of thousands of instants is slow.
    let long_wait = rng.chance(1, 400);
    let careless = if rng.chance(1, 3) {
        Some(careless(rng))
    } else {
        None
    };
    let mut grown = |nodes: (usize, usize), session_names: (usize, usize)| {
        let style = Style {
            nodes: rng.between(nodes.0, nodes.1),
            session_names: rng.between(session_names.0, session_names.1),
            mixed: careless.is_some() || rng.chance(1, 2),
            careless,
        };
        grow::script(rng, &lattice, style)
    };
    let script = match shape {
        _ if long_wait => shapes::waits(rng, &lattice),
        0..=1 => shapes::one_node(rng, &lattice),
        2..=3 => shapes::deep(rng, &lattice),
        4 => shapes::deep_expression(rng, &lattice),
        5 => shapes::largest(rng, &lattice, careless),
        6..=20 => grown((2, 8), (1, 5)),
        21..=24 => grown((41, 150), (2, 40)),
        25..=27 => two_levels::script(rng, &lattice),
        28..=30 => {
            let nodes = rng.between(2, any_levels::MOST_NODES);
            any_levels::script(rng, lattice.count(), nodes)
        }
        _ => grown((5, 40), (1, 10)),
    };
    let mut draft = with_inputs(rng, lattice, script);
    if long_wait || rng.chance(1, 60) {
        let gap = list::long_gap(rng, long_wait);
        list::add_gap(rng, &mut draft, gap);
    }
    draft
}

/// Writes the script, and chooses reader, values, limit, list and log.
fn with_inputs(rng: &mut Rng, lattice: Lattice, script: Script) -> Draft {
    let file = file::write(&script, rng);
    let reader = if rng.chance(1, 2) {
        lattice.top
    } else {
        rng.below(lattice.count())
    };
    Draft {
        book: lattice.order.book(),
        reader: reader as u32,
        values: values(rng, &file),
        limit: limit(rng, &file),
        list: list::list(rng, &file),
        log: log(rng, &file),
        lattice,
        file,
        script: None,
    }
}

/// Values that are not refused: signals 0 or 1, owned names 0.
pub fn values(rng: &mut Rng, file: &File) -> Vec<i32> {
    let value = |name: &file::NameEntry| match (name.owner == SESSION, name.kind) {
        (false, _) => 0,
        (true, 1) => i32::from(rng.chance(1, 3)),
        (true, _) => grow::value(rng),
    };
    file.names.iter().map(value).collect()
}

/// A step limit: 0, small, a few hundred, a few thousand. The greatest one goes to scripts without
/// loops and waiting, which end soon.
fn limit(rng: &mut Rng, file: &File) -> u32 {
    let short = !file.nodes.iter().any(|node| matches!(node.kind, 4 | 9));
    let chosen = match rng.below(20) {
        0 => 0,
        1..=4 => rng.between(1, 12),
        5 => rng.between(400, 2000),
        6..=11 if short => damage::MOST_STEPS as usize - rng.below(2),
        _ => rng.between(12, 400),
    };
    chosen as u32
}

/// A log's length in words, not always a multiple of four.
fn log(rng: &mut Rng, file: &File) -> usize {
    match rng.below(10) {
        0 => rng.below(4),
        1 | 2 => rng.below(40),
        3 => tight_log(rng, file),
        4 => rng.below(200),
        _ => 1600 + rng.below(4),
    }
}

/// At most a line for each assignment and for each signal that is emitted: a script that writes each of these
/// lines once fills it exactly, and may then go on with emissions that are no lines.
fn tight_log(rng: &mut Rng, file: &File) -> usize {
    let of_kind = |kind: u8| file.nodes.iter().filter(move |node| node.kind == kind);
    let signals: BTreeSet<u16> = of_kind(6).map(|emits| emits.a).collect();
    let most = of_kind(1).count() + signals.len();
    4 * rng.between(0, most) + rng.below(4)
}

/// Puts up to `count` faults into a draft, at least one if any of eight tries applies. Faults below the
/// level of entries come last.
fn damaged(draft: &mut Draft, rng: &mut Rng, count: usize) -> Vec<&'static Sort> {
    let mut chosen = vec![];
    for _ in 0..8 {
        chosen = some_sorts(rng, count);
        chosen.sort_by_key(|sort| sort.refusal == 4);
        chosen.retain(|sort| sort.apply(draft, rng).is_some());
        if !chosen.is_empty() {
            break;
        }
    }
    chosen
}

/// Sorts of faults, after the first often of neighbouring refusals, so that their order is tested. Of several
/// the first is often of any refusal alike, since some refusals have few sorts.
fn some_sorts(rng: &mut Rng, count: usize) -> Vec<&'static Sort> {
    let all: Vec<&'static Sort> = damage::sorts().collect();
    let mut first = all[rng.below(all.len())];
    if count > 1 && rng.chance(1, 2) {
        let refusal = rng.between(1, 15) as u32;
        let of_it = all.iter().copied().filter(|sort| sort.refusal == refusal);
        first = rng.pick(&of_it.collect::<Vec<_>>()).unwrap_or(first);
    }
    let near = |sort: &&'static Sort| sort.refusal.abs_diff(first.refusal) == 1;
    let neighbours: Vec<&'static Sort> = all.iter().copied().filter(near).collect();
    let mut chosen = vec![first];
    for _ in 1..count {
        let from = if rng.chance(2, 3) { &neighbours } else { &all };
        chosen.push(from[rng.below(from.len())]);
    }
    chosen
}

#[cfg(test)]
mod tests {
    use super::*;

    #[test]
    fn a_seed_gives_one_case() {
        for seed in 0..50 {
            let (first, second) = (case(&mut Rng::new(seed)), case(&mut Rng::new(seed)));
            assert_eq!(format!("{first:?}"), format!("{second:?}"));
        }
    }

    #[test]
    fn well_formed_files_read_back() {
        for seed in 0..2000 {
            let draft = draft(&mut Rng::new(seed));
            assert_eq!(File::read(&draft.file.bytes()), Some(draft.file));
        }
    }

    #[test]
    fn sizes_stay_within_the_limits() {
        for seed in 0..2000 {
            let File {
                names,
                expressions,
                nodes,
            } = draft(&mut Rng::new(seed)).file;
            assert!(names.len() <= file::MOST_NAMES);
            assert!(expressions.len() <= file::MOST_EXPRESSIONS);
            assert!((1..=file::MOST_NODES).contains(&nodes.len()));
        }
    }

    #[test]
    fn many_scripts_emit_a_signal_twice() {
        let emits_twice = |seed: &u64| {
            let file = draft(&mut Rng::new(*seed)).file;
            let emissions = file.nodes.iter().filter(|node| node.kind == 6);
            let mut seen = BTreeSet::new();
            !emissions.into_iter().all(|node| seen.insert(node.a))
        };
        assert!((0..1000).filter(emits_twice).count() > 400);
    }

    #[test]
    fn every_sort_of_fault_applies() {
        for sort in damage::sorts() {
            let applies = |seed| {
                let mut rng = Rng::new(seed);
                let mut draft = draft(&mut rng);
                sort.apply(&mut draft, &mut rng).is_some()
            };
            assert!((0..200).any(applies), "{} {}", sort.refusal, sort.says);
        }
    }

    #[test]
    fn damage_upon_damage_is_no_panic() {
        for seed in 0..5000 {
            let mut rng = Rng::new(seed);
            let mut draft = draft(&mut rng);
            damaged(&mut draft, &mut rng, 12);
            damage::changed_bytes(&mut draft, &mut rng);
        }
    }
}
