//! The choice of a form, and the forms that are one node of the language.

use super::{Bounds, Grower, Rule};
use crate::rng::Rng;
use crate::tree::{if_else, let_in, local, parallel, sequence, watching, when, while_do, Process};

/// The forms of more than one node: nodes of the language, then patterns.
#[derive(Clone, Copy)]
enum Form {
    Sequence,
    Parallel,
    Conditional,
    AnyLoop,
    Waiting,
    Watched,
    WithRegister,
    WithSignal,
    CountedLoop,
    PauseThen,
    Handshake,
    CutOff,
    HeldBack,
    Awaiting,
    EmitsTwice,
    EmitsAgain,
    Answers,
}

/// Each form with its least size and its weight.
const FORMS: [(Form, usize, usize); 17] = [
    (Form::Sequence, 3, 20),
    (Form::Parallel, 3, 14),
    (Form::Conditional, 3, 11),
    (Form::AnyLoop, 2, 5),
    (Form::Waiting, 2, 7),
    (Form::Watched, 2, 7),
    (Form::WithRegister, 2, 5),
    (Form::WithSignal, 2, 5),
    (Form::CountedLoop, 6, 9),
    (Form::PauseThen, 9, 8),
    (Form::Handshake, 7, 8),
    (Form::CutOff, 7, 8),
    (Form::HeldBack, 20, 8),
    (Form::Awaiting, 5, 9),
    (Form::EmitsTwice, 5, 9),
    (Form::EmitsAgain, 13, 4),
    (Form::Answers, 4, 4),
];

/// A form of at most `size` nodes, by weight.
fn choose_form(rng: &mut Rng, size: usize) -> Form {
    let weight = |&(_, least, weight): &(Form, usize, usize)| match least <= size {
        true => weight,
        false => 0,
    };
    let mut draw = rng.below(FORMS.iter().map(weight).sum());
    for form in &FORMS {
        if draw < weight(form) {
            return form.0;
        }
        draw -= weight(form);
    }
    Form::Waiting
}

impl Grower<'_> {
    /// A process of at most `size` nodes.
    pub fn process(&mut self, bounds: Bounds, size: usize) -> Process {
        if size < 2 {
            return self.leaf(bounds);
        }
        if !self.has_expressions() {
            return self.without_expressions(bounds, size);
        }
        if let Some(leak) = self.leak(bounds, size) {
            return leak;
        }
        match choose_form(self.rng, size) {
            Form::Sequence => self.in_sequence(bounds, size),
            Form::Parallel => self.in_parallel(bounds, size),
            Form::Conditional => self.conditional(bounds, size),
            Form::AnyLoop => self.any_loop(bounds, size),
            Form::Waiting => self.waiting(bounds, size),
            Form::Watched => self.watched(bounds, size),
            Form::WithRegister => self.with_register(bounds, size),
            Form::WithSignal => self.with_signal(bounds, size),
            Form::CountedLoop => self.counted_loop(bounds, size),
            Form::PauseThen => self.pause_then(bounds, size),
            Form::Handshake => self.handshake(bounds, size),
            Form::CutOff => self.cut_off(bounds, size),
            Form::HeldBack => self.held_back(bounds, size),
            Form::Awaiting => self.awaiting(bounds, size),
            Form::EmitsTwice => self.emits_twice(bounds, size),
            Form::EmitsAgain => self.emits_again(bounds, size),
            Form::Answers => self.answers(bounds, size),
        }
    }

    fn without_expressions(&mut self, bounds: Bounds, size: usize) -> Process {
        match self.rng.below(4) {
            0 => self.waiting(bounds, size),
            1 => self.watched(bounds, size),
            2 if size > 2 => self.in_parallel(bounds, size),
            _ if size > 2 => self.in_sequence(bounds, size),
            _ => self.leaf(bounds),
        }
    }

    pub fn in_sequence(&mut self, bounds: Bounds, size: usize) -> Process {
        let (first, second) = self.split(size);
        let (before, after) = self.before_and_after(bounds);
        sequence(self.process(before, first), self.process(after, second))
    }

    pub fn in_parallel(&mut self, bounds: Bounds, size: usize) -> Process {
        let (first, second) = self.split(size);
        let (left, right) = self.left_and_right(bounds);
        // A left part that waits first lets the right part go on before it.
        let left_part = match first >= 9 && self.rng.chance(1, 2) {
            true => self.pause_then(left, first),
            false => self.process(left, first),
        };
        parallel(left_part, self.process(right, second))
    }

    fn conditional(&mut self, bounds: Bounds, size: usize) -> Process {
        let (yes, no) = self.split(size);
        let level = self.middle(bounds).unwrap_or(bounds.write);
        let test = self.test(self.lattice.meet(bounds.test, level));
        let then_bounds = self.guarded(Rule::If, bounds, level);
        let else_bounds = self.guarded(Rule::If, bounds, level);
        if_else(
            test,
            self.process(then_bounds, yes),
            self.process(else_bounds, no),
        )
    }

    /// A loop on any test: it may never begin, and it may never end.
    pub fn any_loop(&mut self, bounds: Bounds, size: usize) -> Process {
        let body = self.looped(bounds);
        let test = self.test(self.lattice.meet(body.test, body.write));
        while_do(test, self.process(body, size - 1))
    }

    fn tested_signal(&mut self, bounds: Bounds) -> Option<usize> {
        self.name(true, |lattice, level| lattice.at_most(level, bounds.test))
    }

    fn waiting(&mut self, bounds: Bounds, size: usize) -> Process {
        let Some(signal) = self.tested_signal(bounds) else {
            return self.with_signal(bounds, size);
        };
        let body = self.guarded(Rule::When, bounds, self.names[signal].level);
        when(signal, self.process(body, size - 1))
    }

    fn watched(&mut self, bounds: Bounds, size: usize) -> Process {
        let Some(signal) = self.tested_signal(bounds) else {
            return self.with_signal(bounds, size);
        };
        let body = self.guarded(Rule::Watching, bounds, self.names[signal].level);
        watching(signal, self.process(body, size - 1))
    }

    fn with_register(&mut self, bounds: Bounds, size: usize) -> Process {
        let level = self.some_level();
        let ceiling = if self.breaks(Rule::Let) {
            self.lattice.top
        } else {
            level
        };
        let value = self.expression(ceiling);
        let Some(name) = self.declare(false, level) else {
            return self.leaf(bounds);
        };
        let body = self.process(bounds, size - 1);
        self.scope.pop();
        let_in(name, value, body)
    }

    fn with_signal(&mut self, bounds: Bounds, size: usize) -> Process {
        let level = self.middle(bounds).unwrap_or(self.lattice.bottom);
        let Some(name) = self.declare(true, level) else {
            return self.leaf(bounds);
        };
        let body = self.process(bounds, size - 1);
        self.scope.pop();
        local(name, body)
    }
}
