//! Planted faults: the comparison must find each of them.

use crate::difference::compare;
use crate::engine::Reference;
use crate::outcome::outcome;
use crate::sweep::{case_seed, library};
use cases::Rng;
use reference::{Fault, Rules};

/// A planted fault, and the number of the case that showed it, from 1.
pub struct Finding {
    pub fault: Fault,
    pub found: Option<u64>,
}

/// The most cases that are tried.
pub const MOST_CASES: u64 = 60_000;

/// Looks for every fault at once: each case is given to the library once, and to the reference under
/// every fault that is still to be found. A case on which the library itself is wrong finds nothing.
pub fn find_all(seed: u64) -> Vec<Finding> {
    let unfound = |&fault: &Fault| Finding { fault, found: None };
    let mut findings: Vec<Finding> = Fault::ALL.iter().map(unfound).collect();
    for number in 0..MOST_CASES {
        let seed = case_seed(seed, number);
        let case = cases::case(&mut Rng::new(seed));
        let Ok(right) = compare(library(seed), &Reference(Rules::default()), &case) else {
            continue;
        };
        let open = findings
            .iter_mut()
            .filter(|finding| finding.found.is_none());
        for finding in open {
            let rules = Rules {
                fault: Some(finding.fault),
            };
            if outcome(&Reference(rules), &case).as_ref() != Ok(&right) {
                finding.found = Some(number + 1);
            }
        }
        if findings.iter().all(|finding| finding.found.is_some()) {
            break;
        }
    }
    findings
}
