//! Floors: how often something must at least be reached.

/// A floor is stated for a usual number of tries. More tries ask for more in proportion; fewer tries ask
/// for three standard deviations less than that, so that chance alone does not fail a small sweep.
pub fn floor(stated: u64, tries: u64, usual: u64) -> u64 {
    let share = stated * tries / usual;
    match tries < usual {
        true => share.saturating_sub(3 * share.isqrt() + 3),
        false => share,
    }
}

#[cfg(test)]
mod tests {
    use super::floor;

    #[test]
    fn floors_grow_with_the_tries() {
        assert_eq!(floor(200, 60_000, 60_000), 200);
        assert_eq!(floor(200, 120_000, 60_000), 400);
        assert_eq!(floor(200, 30_000, 60_000), 67);
        assert_eq!(floor(200, 100, 60_000), 0);
    }
}
