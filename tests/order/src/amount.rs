//! Whole numbers of any size: the least cost of a whole sheet may have thousands of bits, and is not cut (S2.5).

use std::cmp::Ordering;
use std::ops::Add;

/// Words of 64 bits, the least significant first. The last one is not 0, so that equal numbers have equal words.
#[derive(Clone, Debug, PartialEq, Eq)]
pub struct Amount(Vec<u64>);

impl Amount {
    /// The number, where it fits 64 bits.
    pub fn small(&self) -> Option<u64> {
        match self.0[..] {
            [] => Some(0),
            [word] => Some(word),
            _ => None,
        }
    }
}

impl From<u32> for Amount {
    fn from(number: u32) -> Amount {
        Amount(if number == 0 { Vec::new() } else { vec![u64::from(number)] })
    }
}

impl Add<&Amount> for Amount {
    type Output = Amount;

    /// Word by word, with what is carried over.
    fn add(mut self, other: &Amount) -> Amount {
        let mut carried = false;
        for place in 0..self.0.len().max(other.0.len()) {
            if place == self.0.len() {
                self.0.push(0);
            }
            let (sum, over) = self.0[place].overflowing_add(other.0.get(place).copied().unwrap_or(0));
            let (sum, over_again) = sum.overflowing_add(u64::from(carried));
            self.0[place] = sum;
            carried = over || over_again;
        }
        if carried {
            self.0.push(1);
        }
        self
    }
}

impl Ord for Amount {
    /// The one with more words is larger; of two that have as many, the highest word that differs decides.
    fn cmp(&self, other: &Amount) -> Ordering {
        self.0.len().cmp(&other.0.len()).then_with(|| self.0.iter().rev().cmp(other.0.iter().rev()))
    }
}

impl PartialOrd for Amount {
    fn partial_cmp(&self, other: &Amount) -> Option<Ordering> {
        Some(self.cmp(other))
    }
}

#[cfg(test)]
mod tests {
    use super::Amount;

    fn words(words: &[u64]) -> Amount {
        Amount(words.to_vec())
    }

    #[test]
    fn sums() {
        assert_eq!(Amount::from(0) + &Amount::from(0), words(&[]));
        assert_eq!(Amount::from(2) + &Amount::from(3), words(&[5]));
        assert_eq!(words(&[u64::MAX]) + &Amount::from(1), words(&[0, 1]));
        assert_eq!(Amount::from(1) + &words(&[u64::MAX, u64::MAX, 7]), words(&[0, 0, 8]));
        assert_eq!(words(&[u64::MAX, u64::MAX]) + &words(&[u64::MAX, u64::MAX]), words(&[u64::MAX - 1, u64::MAX, 1]));
    }

    #[test]
    fn comparisons() {
        assert!(Amount::from(0) < Amount::from(1) && Amount::from(u32::MAX) < words(&[0, 1]));
        assert!(words(&[9, 1]) < words(&[0, 2]) && words(&[8, 2]) < words(&[9, 2]));
        assert_eq!(Amount::from(7).max(Amount::from(5)), Amount::from(7));
    }

    #[test]
    fn small_ones() {
        assert_eq!(Amount::from(0).small(), Some(0));
        assert_eq!(words(&[u64::MAX]).small(), Some(u64::MAX));
        assert_eq!(words(&[0, 1]).small(), None);
    }
}
