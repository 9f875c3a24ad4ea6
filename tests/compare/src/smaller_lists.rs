//! Smaller lists, for smaller cases.

/// Lists without some pairs, or with some of them in earlier instants. Each is shorter, or has a smaller sum
/// of instants, so that shrinking ends.
pub fn all(list: &[u32]) -> Vec<Vec<u32>> {
    let places = 0..list.len().div_ceil(2);
    let middle = list.len() / 4 * 2;
    let mut all = vec![
        vec![],
        list[..middle].to_vec(),
        list[middle..].to_vec(),
        list[..list.len().saturating_sub(1)].to_vec(),
    ];
    all.extend(places.clone().map(|place| without_pair(list, place)));
    all.extend(places.flat_map(|place| with_smaller_gap(list, place)));
    all.retain(|smaller| weight(smaller) < weight(list));
    all
}

fn weight(list: &[u32]) -> (usize, u64) {
    let instants = list.iter().step_by(2).copied();
    (list.len(), instants.map(u64::from).sum())
}

/// The list without a pair, or without half a pair at the end.
fn without_pair(list: &[u32], place: usize) -> Vec<u32> {
    let after = list.get(2 * place + 2..).unwrap_or(&[]);
    [&list[..2 * place], after].concat()
}

/// Lists with fewer instants before a pair: none, half of them, all but one.
fn with_smaller_gap(list: &[u32], place: usize) -> [Vec<u32>; 3] {
    let before = place.checked_sub(1).map_or(1, |before| list[2 * before]);
    let gap = list[2 * place].saturating_sub(before);
    [gap, gap / 2, gap.min(1)].map(|by| earlier(list, place, by))
}

/// The list with a pair and those after it so many instants earlier.
fn earlier(list: &[u32], place: usize, by: u32) -> Vec<u32> {
    let mut moved = list.to_vec();
    let late = moved.iter_mut().step_by(2).skip(place);
    late.for_each(|instant| *instant = instant.saturating_sub(by));
    moved
}

/// The list for names without one of them; none if the list holds it.
pub fn without_name(list: &[u32], name: usize) -> Option<Vec<u32>> {
    let mut renumbered = list.to_vec();
    for word in renumbered.iter_mut().skip(1).step_by(2) {
        match *word as usize {
            used if used == name => return None,
            other => *word -= u32::from(other > name),
        }
    }
    Some(renumbered)
}

#[cfg(test)]
mod tests {
    use super::*;

    #[test]
    fn pairs_go_or_come_earlier() {
        let smaller = all(&[2, 7, 5, 8, 5]);
        for list in [
            &[2, 7, 5][..],
            &[5, 8, 5],
            &[2, 7, 5, 8],
            &[1, 7, 4, 8, 4],
            &[2, 7, 2, 8, 2],
        ] {
            assert!(smaller.contains(&list.to_vec()), "{list:?}");
        }
        assert!(all(&[]).is_empty());
    }

    #[test]
    fn names_are_numbered_anew() {
        assert_eq!(without_name(&[1, 3, 2, 9], 5), Some(vec![1, 3, 2, 8]));
        assert_eq!(without_name(&[1, 3, 2, 9], 9), None);
    }
}
