//! Buffers with guard elements before and after them.

/// How many guard elements stand on each side.
const GUARDS: usize = 16;

/// A buffer inside a larger one. What writes outside its slice changes a guard.
pub struct Guarded<T> {
    whole: Vec<T>,
    guard: T,
}

impl<T: Copy + PartialEq> Guarded<T> {
    pub fn new(content: &[T], guard: T) -> Guarded<T> {
        let mut whole = vec![guard; GUARDS];
        whole.extend_from_slice(content);
        whole.resize(content.len() + 2 * GUARDS, guard);
        Guarded { whole, guard }
    }

    fn end(&self) -> usize {
        self.whole.len() - GUARDS
    }

    pub fn slice(&self) -> &[T] {
        &self.whole[GUARDS..self.end()]
    }

    pub fn slice_mut(&mut self) -> &mut [T] {
        let end = self.end();
        &mut self.whole[GUARDS..end]
    }

    /// Whether neither a guard has changed nor the content, for a buffer that is read only.
    pub fn holds(&self, content: &[T]) -> bool {
        self.intact() && self.slice() == content
    }

    /// Whether no guard has changed.
    pub fn intact(&self) -> bool {
        let guards = self.whole[..GUARDS].iter().chain(&self.whole[self.end()..]);
        guards.into_iter().all(|element| *element == self.guard)
    }
}

#[cfg(test)]
mod tests {
    use super::*;

    #[test]
    fn a_write_outside_is_seen() {
        let mut buffer = Guarded::new(&[1, 2], 7);
        assert_eq!(buffer.slice(), [1, 2]);
        assert!(buffer.holds(&[1, 2]));
        buffer.slice_mut()[1] = 7;
        assert!(buffer.intact() && !buffer.holds(&[1, 2]));
        buffer.whole[GUARDS - 1] = 0;
        assert!(!buffer.intact());
    }
}
