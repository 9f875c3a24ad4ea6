//! Where an owned name may be used (01, 'Script file'): refusal 10.

use crate::fault::{Fault, Rules};
use crate::file::File;
use crate::uses::{parts, uses, Part, PLACES};

/// Row 10: 'owned name outside its body', place as under 9. 'An owned name is
/// used only inside the body of its declaration.'
pub fn refusal_10(rules: Rules, file: &File) -> Option<usize> {
    let users = Users::of(file);
    let out_of_reach = |part: Part| {
        let owner = used_name(rules, file, part).and_then(|x| file.names[x].owner());
        owner.is_some_and(|owner| !users.inside_body(rules, file, part, owner))
    };
    let found = parts(file).find(|&part| out_of_reach(part));
    found.map(Part::place)
}

/// The name that the part's own field uses.
fn used_name(rules: Rules, file: &File, part: Part) -> Option<usize> {
    match part {
        Part::Expression(e) => file.expressions[e].register(),
        Part::Node(k) if file.nodes[k].is_guard() && rules.has(Fault::GuardIsNoUse) => None,
        Part::Node(k) => file.nodes[k].used_name(),
    }
}

/// The one user of each part, by the part's place.
struct Users([Option<Part>; PLACES]);

impl Users {
    fn of(file: &File) -> Users {
        let mut users = [None; PLACES];
        // No part uses itself after refusal 8. The filter keeps the walk up
        // finite where a planted fault lets a child be its parent.
        for (user, used) in uses(file).filter(|(user, used)| user != used) {
            users[used.place()] = Some(user);
        }
        Users(users)
    }

    /// Walks up from the part. It lies inside the body if the walk reaches the
    /// declaration from its child: 'a let's expression lies outside it'.
    fn inside_body(&self, rules: Rules, file: &File, part: Part, owner: usize) -> bool {
        let body = file.nodes[owner].children()[0].map(Part::Node);
        let mut at = part;
        while let Some(user) = self.0[at.place()] {
            let from_body = Some(at) == body || rules.has(Fault::LetExpressionInside);
            if user == Part::Node(owner) && from_body {
                return true;
            }
            at = user;
        }
        false
    }
}
