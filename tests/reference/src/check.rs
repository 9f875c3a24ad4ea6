//! Check: the rows of 01's table in the order of their numbers.

use crate::book::Book;
use crate::fault::Rules;
use crate::file::File;
use crate::levels::{levels, Levels};
use crate::reach::refusal_10;
use crate::refusal::{row, Refusal};
use crate::shape::{refusal_6, refusal_7, refusal_8};
use crate::uses::refusal_9;

/// A script accepted under a book, with its write and test level.
pub struct Accepted {
    pub book: Book,
    pub file: File,
    pub levels: Levels,
}

/// Rows 1 to 10.
pub fn well_formed(rules: Rules, book: &[u8], script: &[u8]) -> Result<(Book, File), Refusal> {
    let book = Book::read(rules, book)?;
    let file = well_formed_file(rules, book.count(), script)?;
    Ok((book, file))
}

/// Rows 4 to 10, where row 6 takes levels below `levels`.
pub fn well_formed_file(rules: Rules, levels: usize, script: &[u8]) -> Result<File, Refusal> {
    let file = File::read(rules, script)?;
    row(6, refusal_6(rules, levels, &file))?;
    row(7, refusal_7(rules, &file))?;
    row(8, refusal_8(rules, &file))?;
    row(9, refusal_9(rules, &file))?;
    row(10, refusal_10(rules, &file))?;
    Ok(file)
}

/// Rows 1 to 11.
pub fn accepted(rules: Rules, book: &[u8], script: &[u8]) -> Result<Accepted, Refusal> {
    let (book, file) = well_formed(rules, book, script)?;
    match levels(rules, &book, &file) {
        Ok(levels) => Ok(Accepted { book, file, levels }),
        Err(place) => Err(Refusal {
            number: 11,
            place: place as u32,
        }),
    }
}
