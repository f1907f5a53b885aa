//! Sets of numbers below 65,536.

/// A set of numbers below 65,536. A bit of the summary is set if and only if its word isn't 0.
pub struct NumberSet {
    words: Box<[u64; 1024]>,
    summary: [u64; 16],
}

impl NumberSet {
    pub fn new() -> NumberSet {
        NumberSet {
            words: Box::new([0; 1024]),
            summary: [0; 16],
        }
    }

    /// Adds a number if `is_in` holds, and removes it otherwise.
    pub fn set(&mut self, number: u16, is_in: bool) {
        let place = usize::from(number >> 6);
        let bit = 1 << (number & 63);
        if is_in {
            self.words[place] |= bit;
            self.summary[place >> 6] |= 1 << (place & 63);
        } else {
            self.words[place] &= !bit;
            if self.words[place] == 0 {
                self.summary[place >> 6] &= !(1 << (place & 63));
            }
        }
    }

    /// The least number.
    pub fn least(&self) -> Option<u16> {
        let index = self.summary.iter().position(|&word| word != 0)?;
        let place = index * 64 + self.summary[index].trailing_zeros() as usize;
        Some((place * 64) as u16 + self.words[place].trailing_zeros() as u16)
    }

    /// The numbers in ascending order.
    pub fn iter(&self) -> impl Iterator<Item = u16> + '_ {
        bits(&self.summary).flat_map(|place| {
            bits(&self.words[place..=place]).map(move |bit| (place * 64 + bit) as u16)
        })
    }
}

/// The indices of the bits that are set, in ascending order.
pub fn bits(words: &[u64]) -> impl Iterator<Item = usize> + '_ {
    words.iter().enumerate().flat_map(|(index, &word)| {
        let mut left = word;
        std::iter::from_fn(move || {
            if left == 0 {
                return None;
            }
            let bit = left.trailing_zeros() as usize;
            left &= left - 1;
            Some(index * 64 + bit)
        })
    })
}
