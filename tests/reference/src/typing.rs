//! Figure 5 by brute force: every type (θ, σ) cmd that the rules derive for a
//! script, subsumption included. It follows the report's rules and shares
//! nothing with the list of 01 that the checker computes W and T by.

use crate::book::{Book, Level, MOST_LEVELS};
use crate::file::File;
use crate::tree::{Expression, Name, Process};

/// A set of types (θ, σ) cmd: bit σ of row θ.
#[derive(Clone, Copy, Debug, Default, PartialEq, Eq)]
struct Types([u16; MOST_LEVELS]);

impl Types {
    fn add(&mut self, theta: Level, sigma: Level) {
        self.0[theta] |= 1 << sigma;
    }

    fn has(&self, theta: Level, sigma: Level) -> bool {
        self.0[theta] >> sigma & 1 == 1
    }

    fn iter(&self) -> impl Iterator<Item = (Level, Level)> + '_ {
        let all = (0..MOST_LEVELS).flat_map(|t| (0..MOST_LEVELS).map(move |s| (t, s)));
        all.filter(|&(theta, sigma)| self.has(theta, sigma))
    }
}

/// A type-environment Γ: the level of each name in its domain.
type Environment = Vec<Option<Level>>;

/// Every pair (θ, σ) derivable for the file's script in the environment of its
/// session names.
pub fn pairs(book: &Book, file: &File) -> Vec<(u32, u32)> {
    let session = file.names.iter().map(|name| {
        let level = name.level as Level;
        name.owner().is_none().then_some(level)
    });
    let script = Process::of(file, file.script());
    derived(book, session.collect(), &script)
}

fn derived(book: &Book, mut gamma: Environment, process: &Process) -> Vec<(u32, u32)> {
    let types = Derivation { book }.process(&mut gamma, process);
    types.iter().map(|(t, s)| (t as u32, s as u32)).collect()
}

/// Every pair (θ, σ) derivable for the configuration's P in its Γ.
#[cfg(test)]
pub fn types_of(book: &Book, c: &crate::configuration::Configuration) -> Vec<(u32, u32)> {
    let levels = c.types.iter().map(|typing| typing.map(|t| t.level));
    derived(book, levels.collect(), &c.process)
}

/// The rules of Figure 5 over the levels of a book.
struct Derivation<'a> {
    book: &'a Book,
}

impl Derivation<'_> {
    /// All (θ, σ) with Γ ⊢ P : (θ, σ) cmd.
    fn process(&self, gamma: &mut Environment, process: &Process) -> Types {
        let derived = match process {
            Process::Nil => self.nil(),
            Process::Assign(x, e) => self.assign(gamma, *x, e),
            Process::Let(d, e, p) => self.let_in(gamma, (d.name, d.level), e, p),
            Process::If(e, p, q) => self.cond(gamma, e, p, q),
            Process::While(e, p) => self.while_do(gamma, e, p),
            Process::Sequence(p, q) => self.seq(gamma, p, q),
            Process::Emit(a) => self.writes(gamma[*a]),
            Process::Local(d, p) => self.extended(gamma, (d.name, d.level), p),
            Process::Watching(p, a) | Process::When(a, p) => self.guarded(gamma, *a, p),
            Process::Parallel(p, q) => self.par(gamma, p, q),
        };
        self.subsumption(derived)
    }

    fn le(&self, i: Level, j: Level) -> bool {
        self.book.at_or_below(i, j)
    }

    /// (SUB): θ ≥ θ' and σ ≤ σ'.
    fn subsumption(&self, types: Types) -> Types {
        let mut closed = Types::default();
        for (theta, sigma) in types.iter() {
            let lower = self.book.levels().filter(|&t| self.le(t, theta));
            let raised = self.book.levels().filter(|&s| self.le(sigma, s));
            let tests = raised.fold(0, |set, s| set | 1 << s);
            lower.for_each(|t| closed.0[t] |= tests);
        }
        closed
    }

    /// (EXPR): the δ with δ ≥ θi for every register of e. A register outside
    /// dom(Γ) leaves no δ.
    fn expression(&self, gamma: &Environment, e: &Expression) -> u16 {
        match e {
            Expression::Constant(_) => self.levels_from(None),
            Expression::Register(x) => match gamma[*x] {
                Some(theta) => self.levels_from(Some(theta)),
                None => 0,
            },
            Expression::Operation(_, a, b) => self.expression(gamma, a) & self.expression(gamma, b),
            Expression::Not(a) => self.expression(gamma, a),
        }
    }

    /// The set of the levels at or above one, or of all.
    fn levels_from(&self, least: Option<Level>) -> u16 {
        let above = |&i: &Level| least.is_none_or(|least| self.le(least, i));
        let levels = self.book.levels().filter(above);
        levels.fold(0, |set, i| set | 1 << i)
    }

    /// The levels δ with Γ ⊢ e : δ, one by one.
    fn deltas(&self, gamma: &Environment, e: &Expression) -> impl Iterator<Item = Level> {
        let set = self.expression(gamma, e);
        (0..MOST_LEVELS).filter(move |&delta| set >> delta & 1 == 1)
    }

    /// (NIL): any θ and any σ.
    fn nil(&self) -> Types {
        let mut types = Types::default();
        for theta in self.book.levels() {
            types.0[theta] = self.levels_from(None);
        }
        types
    }

    /// The end of (ASSIGN) and (EMIT): θ is the name's level, any σ.
    fn writes(&self, level: Option<Level>) -> Types {
        let mut types = Types::default();
        if let Some(theta) = level {
            types.0[theta] = self.levels_from(None);
        }
        types
    }

    /// (ASSIGN): Γ ⊢ e : θ and Γ(x) = θ var.
    fn assign(&self, gamma: &Environment, x: Name, e: &Expression) -> Types {
        let theta = gamma[x].filter(|&theta| self.deltas(gamma, e).any(|delta| delta == theta));
        self.writes(theta)
    }

    /// (LET): Γ ⊢ e : δ, and P in {x : δ var}Γ.
    fn let_in(
        &self,
        gamma: &mut Environment,
        (x, delta): (Name, Level),
        e: &Expression,
        p: &Process,
    ) -> Types {
        let typed = self.deltas(gamma, e).any(|d| d == delta);
        let body = self.extended(gamma, (x, delta), p);
        if typed {
            body
        } else {
            Types::default()
        }
    }

    /// P in {n : δ name}Γ; by itself (LOCAL).
    fn extended(&self, gamma: &mut Environment, (n, delta): (Name, Level), p: &Process) -> Types {
        let outer = gamma[n].replace(delta);
        let types = self.process(gamma, p);
        gamma[n] = outer;
        types
    }

    /// (SEQ): σ1 ≤ θ2.
    fn seq(&self, gamma: &mut Environment, p: &Process, q: &Process) -> Types {
        let (first, second) = (self.process(gamma, p), self.process(gamma, q));
        self.composed(&first, &second, |(_, s1), (t2, _)| self.le(s1, t2))
    }

    /// (PAR): σ1 ≤ θ2 and σ2 ≤ θ1.
    fn par(&self, gamma: &mut Environment, p: &Process, q: &Process) -> Types {
        let (first, second) = (self.process(gamma, p), self.process(gamma, q));
        let both_ways = |(t1, s1), (t2, s2)| self.le(s1, t2) && self.le(s2, t1);
        self.composed(&first, &second, both_ways)
    }

    /// (θ1 ∧ θ2, σ1 ∨ σ2) for all types of the two parts under a condition.
    fn composed(
        &self,
        first: &Types,
        second: &Types,
        condition: impl Fn((Level, Level), (Level, Level)) -> bool,
    ) -> Types {
        let mut types = Types::default();
        let pairs = first
            .iter()
            .flat_map(|p| second.iter().map(move |q| (p, q)));
        for (p, q) in pairs.filter(|&(p, q)| condition(p, q)) {
            types.add(self.book.meet(p.0, q.0), self.book.join(p.1, q.1));
        }
        types
    }

    /// (COND): both branches (θ, σ), δ ≤ θ; gives (θ, δ ∨ σ).
    fn cond(&self, gamma: &mut Environment, e: &Expression, p: &Process, q: &Process) -> Types {
        let (first, second) = (self.process(gamma, p), self.process(gamma, q));
        let mut types = Types::default();
        for delta in self.deltas(gamma, e) {
            let same = first.iter().filter(|&(t, s)| second.has(t, s));
            for (theta, sigma) in same.filter(|&(t, _)| self.le(delta, t)) {
                types.add(theta, self.book.join(delta, sigma));
            }
        }
        types
    }

    /// (WHILE): δ ∨ σ ≤ θ; gives (θ, δ ∨ σ).
    fn while_do(&self, gamma: &mut Environment, e: &Expression, p: &Process) -> Types {
        let body = self.process(gamma, p);
        let mut types = Types::default();
        for delta in self.deltas(gamma, e) {
            let joined = body.iter().map(|(t, s)| (t, self.book.join(delta, s)));
            for (theta, sigma) in joined.filter(|&(t, s)| self.le(s, t)) {
                types.add(theta, sigma);
            }
        }
        types
    }

    /// (WATCH) and (WHEN): Γ(a) = δ sig, δ ≤ θ; gives (θ, δ ∨ σ).
    fn guarded(&self, gamma: &mut Environment, a: Name, p: &Process) -> Types {
        let body = self.process(gamma, p);
        let mut types = Types::default();
        let Some(delta) = gamma[a] else {
            return types;
        };
        for (theta, sigma) in body.iter().filter(|&(t, _)| self.le(delta, t)) {
            types.add(theta, self.book.join(delta, sigma));
        }
        types
    }
}
