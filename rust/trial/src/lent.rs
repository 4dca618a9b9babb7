//! Memory to lend, with guard values around what is lent.

const GUARD: usize = 64;

/// Room of which a beginning is lent; the rest of it and the guards around must keep their values.
#[derive(Clone, Debug, PartialEq)]
pub struct Lent<T> {
    all: Vec<T>,
    from: usize,
}

impl<T: Copy + PartialEq> Lent<T> {
    /// Room for that many, all of the same value.
    pub fn new(room: usize, value: T) -> Lent<T> {
        Lent { all: vec![value; room + 2 * GUARD], from: GUARD }
    }

    pub fn room(&self) -> usize {
        self.all.len() - self.from - GUARD
    }

    pub fn lend(&mut self, n: usize) -> &mut [T] {
        assert!(n <= self.room());
        &mut self.all[self.from..self.from + n]
    }

    pub fn look(&self, n: usize) -> &[T] {
        assert!(n <= self.room());
        &self.all[self.from..self.from + n]
    }

    pub fn put(&mut self, at: usize, values: &[T]) {
        assert!(at + values.len() <= self.room());
        let from = self.from + at;
        self.all[from..from + values.len()].copy_from_slice(values);
    }

    pub fn copy_from(&mut self, other: &Lent<T>) {
        self.all.copy_from_slice(&other.all);
    }

    /// Whether all is as in the other, but for so many from a place of the room on.
    pub fn same_but(&self, other: &Lent<T>, at: usize, n: usize) -> bool {
        let (from, to) = (self.from + at, self.from + at + n);
        self.all[..from] == other.all[..from] && self.all[to..] == other.all[to..]
    }

    /// The first place, counted from where the lending starts, that is not as in the other.
    pub fn differs(&self, other: &Lent<T>) -> Option<isize> {
        if self.all == other.all {
            return None;
        }
        let place = self.all.iter().zip(&other.all).position(|(a, b)| a != b);
        Some(place.unwrap_or(self.all.len()) as isize - self.from as isize)
    }
}

impl Lent<u8> {
    /// Room for that many octets, guards included in what is filled; the lending starts `shift` octets off.
    pub fn of_octets(room: usize, shift: usize, fill: impl FnOnce(&mut [u8])) -> Lent<u8> {
        let from = GUARD + shift;
        let mut all = vec![0; from + room + GUARD];
        fill(&mut all);
        Lent { all, from }
    }
}

#[cfg(test)]
mod tests {
    use super::*;

    #[test]
    fn sees_what_changed_inside_and_around() {
        let same = Lent::new(10, 5_u8);
        assert_eq!(same.differs(&same.clone()), None);
        for (place, told) in [(0, -64), (63, -1), (64, 0), (73, 9), (74, 10), (137, 73)] {
            let mut other = same.clone();
            other.all[place] ^= 1;
            assert_eq!(same.differs(&other), Some(told));
        }
    }

    #[test]
    fn same_but_for_a_part() {
        let same = Lent::new(10, 5_u8);
        let mut other = same.clone();
        other.put(3, &[1, 2]);
        assert!(same.same_but(&other, 3, 2));
        assert!(!same.same_but(&other, 4, 2) && !same.same_but(&other, 3, 1));
    }
}
