//! The order of a level book, read from its bytes.

/// Bit `upper` of row `lower`; false past the rows.
pub fn at_or_below(book: &[u8], lower: u32, upper: u32) -> bool {
    let place = 1 + 2 * lower as usize;
    match book.get(place..place + 2) {
        Some(&[high, low]) => u16::from_be_bytes([high, low]) >> upper & 1 == 1,
        _ => false,
    }
}
