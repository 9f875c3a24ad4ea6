//! A script file as text, for people who look into a difference.

use crate::file::{Entry, File};

/// The script in the report's notation: `x3@1` is register 3 of level 1, `s2@0` signal 2 of level 0. A
/// damaged file is shown as far as it goes.
pub fn show(file: &File) -> String {
    match file.nodes.len() {
        0 => "no node".into(),
        count => node(file, count - 1),
    }
}

fn name(file: &File, number: u16) -> String {
    match file.names.get(usize::from(number)) {
        Some(name) => {
            let letter = if name.kind == 1 { 's' } else { 'x' };
            format!("{letter}{number}@{}", name.level)
        }
        None => format!("?{number}"),
    }
}

fn expression(file: &File, place: usize) -> String {
    let Some(entry @ &Entry { kind, a, b, .. }) = file.expressions.get(place) else {
        return "?".into();
    };
    let operand = |field: u16| match usize::from(field) < place {
        true => expression(file, field.into()),
        false => "?".into(),
    };
    match kind {
        0 => entry.value().to_string(),
        1 => name(file, a),
        2..=7 => {
            let operator = ["+", "-", "*", "/", "<", "="][usize::from(kind) - 2];
            format!("({} {operator} {})", operand(a), operand(b))
        }
        8 => format!("not {}", operand(a)),
        _ => "?".into(),
    }
}

fn node(file: &File, place: usize) -> String {
    let Some(&Entry { kind, a, b, c, .. }) = file.nodes.get(place) else {
        return "?".into();
    };
    let child = |field: u16| match usize::from(field) < place {
        true => node(file, field.into()),
        false => "?".into(),
    };
    let value = |field: u16| expression(file, field.into());
    match kind {
        0 => "nil".into(),
        1 => format!("{} := {}", name(file, a), value(b)),
        2 => format!("let {} = {} in {}", name(file, a), value(b), child(c)),
        3 => format!("if {} then {} else {}", value(a), child(b), child(c)),
        4 => format!("while {} do {}", value(a), child(b)),
        5 => format!("({}; {})", child(a), child(b)),
        6 => format!("emit {}", name(file, a)),
        7 => format!("local {} in {}", name(file, a), child(b)),
        8 => format!("do {} watching {}", child(b), name(file, a)),
        9 => format!("when {} do {}", name(file, a), child(b)),
        10 => format!("({} || {})", child(a), child(b)),
        _ => "?".into(),
    }
}
