//! Run's own arguments (01, 'Calls'; 02, request (a)): refusals 12 to 15.

use crate::book::Book;
use crate::check::Accepted;
use crate::fault::{Fault, Rules};
use crate::file::{File, NameEntry};
use crate::inputs::refusal_15;
use crate::refusal::{row, Refusal};
use crate::RunArguments;

const MOST_STEPS: u32 = 1_000_000;

/// Rows 12 to 15; 'after 14' says where 15 stands.
pub fn refusals(
    rules: Rules,
    accepted: &Accepted,
    arguments: &RunArguments,
) -> Result<(), Refusal> {
    let Accepted { book, file, .. } = accepted;
    let limit = || row(14, refusal_14(rules, arguments.limit));
    let list = || row(15, refusal_15(rules, file, judged_list(rules, arguments)));
    row(12, refusal_12(rules, book, arguments.reader))?;
    row(13, refusal_13(rules, file, arguments.values))?;
    match rules.has(Fault::ListBeforeLimit) {
        true => list().and_then(|()| limit()),
        false => limit().and_then(|()| list()),
    }
}

/// What row 15 looks at: the whole list, also pairs of instants that no run of so
/// many steps enters.
fn judged_list<'a>(rules: Rules, arguments: &RunArguments<'a>) -> &'a [u32] {
    let list = arguments.list;
    if !rules.has(Fault::ListPastLimitPasses) {
        return list;
    }
    let past = list.chunks(2).position(|pair| pair[0] > arguments.limit);
    &list[..past.map_or(list.len(), |past| 2 * past)]
}

/// Row 12: 'level not in book', place 0.
fn refusal_12(rules: Rules, book: &Book, reader: u32) -> Option<usize> {
    let right = (reader as usize) < book.count()
        || (reader as usize == book.count() && rules.has(Fault::ReaderMayBeCount));
    (!right).then_some(0)
}

/// Row 13: 'length or an entry wrong', place '0 for length, which comes first;
/// else first wrong entry'. 'One signed 32-bit number per name: signals 0 or 1,
/// owned names 0.'
fn refusal_13(rules: Rules, file: &File, values: &[i32]) -> Option<usize> {
    if values.len() != file.names.len() && !rules.has(Fault::ValuesLengthUnchecked) {
        return Some(0);
    }
    let mut entries = file.names.iter().zip(values);
    let wrong = entries.position(|(name, &value)| !value_is_right(rules, name, value));
    wrong.map(|x| x + usize::from(rules.has(Fault::ValuesPlaceFromOne)))
}

fn value_is_right(rules: Rules, name: &NameEntry, value: i32) -> bool {
    if name.owner().is_some() {
        return value == 0 || rules.has(Fault::OwnedValueUnchecked);
    }
    let two = value == 2 && rules.has(Fault::SignalMayBeTwo);
    name.is_register() || value == 0 || value == 1 || two
}

/// Row 14: 'above 1,000,000', place 0.
fn refusal_14(rules: Rules, limit: u32) -> Option<usize> {
    let refused =
        limit > MOST_STEPS || (limit == MOST_STEPS && rules.has(Fault::LimitBelowMillion));
    refused.then_some(0)
}
