//! A refusal: a row of 01's table, and the place that it gives.

/// 'The lowest number that applies is given.'
#[derive(Clone, Copy, Debug, PartialEq, Eq)]
pub struct Refusal {
    pub number: u32,
    pub place: u32,
}

/// A row of the table: refuses with `number` if the row found a place. A place is
/// returned in 32 bits: that of a longer list is held to the greatest number.
pub fn row(number: u32, place: Option<usize>) -> Result<(), Refusal> {
    match place {
        None => Ok(()),
        Some(place) => Err(Refusal {
            number,
            place: u32::try_from(place).unwrap_or(u32::MAX),
        }),
    }
}

#[cfg(test)]
mod tests {
    use super::row;

    /// No list of a test is long enough to have such a pair.
    #[test]
    #[cfg(target_pointer_width = "64")]
    fn a_place_is_held_to_32_bits() {
        for (place, held) in [(7, 7), (u32::MAX as usize, u32::MAX), (1 << 33, u32::MAX)] {
            assert_eq!(row(15, Some(place)).unwrap_err().place, held);
        }
    }
}
