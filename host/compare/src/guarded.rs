//! A part lent to a layer, with guards on both sides: what a layer changes outside
//! of it shows when the parts are compared.

use std::fmt::Display;

/// So many guards are at each end.
const GUARDS: usize = 16;

/// A part between guards.
#[derive(Clone, PartialEq)]
pub struct Guarded<T> {
    all: Vec<T>,
    start: usize,
    end: usize,
}

impl<T: Copy + Display + From<u8> + PartialEq> Guarded<T> {
    /// This part, preceded by `shift` guards more: a layer must not count on where
    /// a part starts.
    pub fn new(part: &[T], shift: usize) -> Guarded<T> {
        let start = GUARDS + shift;
        let end = start + part.len();
        let mut all = vec![T::from(0xa5); end + GUARDS];
        all[start..end].copy_from_slice(part);
        Guarded { all, start, end }
    }

    pub fn part(&self) -> &[T] {
        &self.all[self.start..self.end]
    }

    pub fn part_mut(&mut self) -> &mut [T] {
        &mut self.all[self.start..self.end]
    }

    /// Where two that were the same first differ, in words.
    pub fn difference(&self, other: &Guarded<T>) -> Option<String> {
        let mut pairs = self.all.iter().zip(&other.all);
        let at = pairs.position(|(one, other)| one != other)?;
        let place = match at {
            at if at < self.start => "before its start".to_string(),
            at if at >= self.end => "after its end".to_string(),
            at => format!("at {}", at - self.start),
        };
        Some(format!("{place}: {} and {}", self.all[at], other.all[at]))
    }
}

#[cfg(test)]
mod tests {
    use super::Guarded;

    #[test]
    fn a_change_is_noticed_wherever_it_is() {
        let before = Guarded::<u8>::new(&[1, 2, 3], 5);
        assert_eq!(before.part(), [1, 2, 3]);
        assert_eq!(before.difference(&before.clone()), None);
        for (at, words) in [
            (0, "before its start: 165 and 9"),
            (20, "before its start: 165 and 9"),
            (22, "at 1: 2 and 9"),
            (24, "after its end: 165 and 9"),
        ] {
            let mut after = before.clone();
            after.all[at] = 9;
            assert_eq!(before.difference(&after), Some(words.to_string()));
            assert!(before != after);
        }
    }
}
