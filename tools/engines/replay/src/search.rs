//! The split search: pairs of groups with no common occupied slot.
use crate::heap::Heap;
use crate::mesh::are_disjoint;

/// A group as a search sees it.
#[derive(Clone, Copy)]
pub struct Candidate {
    group: u16,
    occupied_count: u16,
    occupied: [u64; 4],
}

/// What a search finds.
pub struct Found {
    /// Each source with its destination.
    pub pairs: Vec<(u16, u16)>,
    /// The number of tries.
    pub tries: u32,
}

impl Heap {
    /// The groups of a class in no mesh with a free slot and an occupied one, in ascending order.
    pub fn candidates(&self, class: usize) -> Vec<Candidate> {
        let candidate = |group: u16| {
            let state = &self.groups[usize::from(group)];
            Candidate {
                group,
                occupied_count: state.occupied_count,
                occupied: state.occupied,
            }
        };
        self.partial[class].iter().map(candidate).collect()
    }
}

/// Searches candidates, which the words shuffle, in at most `rounds` rounds.
pub fn split_search(candidates: &[Candidate], rounds: usize, words: &[u64]) -> Found {
    let order = shuffled(candidates.len(), words);
    let half = order.len() / 2;
    let list = |places: &[u16]| -> Vec<Candidate> {
        places
            .iter()
            .map(|&place| candidates[usize::from(place)])
            .collect()
    };
    let mut left = list(&order[..half]);
    let mut right = list(&order[half..2 * half]);
    let mut is_taken = vec![false; half];
    let mut found = Found {
        pairs: Vec::new(),
        tries: 0,
    };
    for round in 0..rounds {
        let count = left.len();
        if count == 0 {
            break;
        }
        found.tries += count as u32;
        is_taken[..count].fill(false);
        let mut other = round % count;
        left.retain(|one| {
            let place = other;
            other = if other + 1 == count { 0 } else { other + 1 };
            let is_pair = are_disjoint(&one.occupied, &right[place].occupied);
            if is_pair {
                found.pairs.push(ordered(one, &right[place]));
                is_taken[place] = true;
            }
            !is_pair
        });
        if left.len() < count {
            let mut taken = is_taken.iter();
            right.retain(|_| taken.next() == Some(&false));
        }
    }
    found
}

/// A source and a destination: the group with fewer occupied slots is the source.
fn ordered(one: &Candidate, other: &Candidate) -> (u16, u16) {
    if one.occupied_count < other.occupied_count {
        (one.group, other.group)
    } else {
        (other.group, one.group)
    }
}

/// The places below `count` in the order in which the words pick them. A missing word is 0.
fn shuffled(count: usize, words: &[u64]) -> Vec<u16> {
    let mut places: Vec<u16> = (0..count as u16).collect();
    let mut order = Vec::with_capacity(count);
    for word in words.iter().take(count) {
        order.push(places.remove((word % places.len() as u64) as usize));
    }
    order.append(&mut places);
    order
}
