//! The edge flags of a list, from a source of their own: the other numbers of its calls don't depend on them.

use super::Random;

pub struct Edges {
    random: Random,
    /// The flag that the list starts under.
    pub first: u8,
}

impl Edges {
    /// Those of the list of this seed. Half of the lists start under flag 1.
    pub fn of_list(seed: u64) -> Self {
        let mut random = Random::new(!seed);
        let first = random.below(2) as u8;
        Self { random, first }
    }

    /// For a further open: mostly the first flag again, now and then the other one, or a number that is none.
    pub fn next_open(&mut self) -> u8 {
        match self.random.below(16) {
            0 => self.random.pick(&[2, 3, 127, 128, 129, 254, 255]),
            1 => 2 + self.random.below(254) as u8,
            2..5 => 1 - self.first,
            _ => self.first,
        }
    }
}

#[cfg(test)]
mod tests {
    use crate::list::List;
    use crate::random::list;
    use calls::Call;

    /// The flags that opens after a list's first call are told.
    fn later(list: &List) -> Vec<u8> {
        let calls = list.steps.iter().skip(1).map(|step| &step.call);
        calls.filter_map(|call| if let Call::Open { edge, .. } = call { Some(*edge) } else { None }).collect()
    }

    #[test]
    fn half_of_the_lists_start_under_flag_1() {
        for (with_record, least) in [(true, 250), (false, 600)] {
            let lists = (0..2_000).map(list).filter(|list| list.start.record.is_some() == with_record);
            let (stop, clamp): (Vec<List>, Vec<List>) = lists.partition(|list| list.edge() == 1);
            assert!(stop.len() > least && clamp.len() > least, "{} {}", stop.len(), clamp.len());
        }
    }

    #[test]
    fn later_opens_change_the_flag_or_are_told_another_number() {
        let lists: Vec<List> = (0..2_000).map(list).collect();
        for first in [0, 1] {
            let under = || lists.iter().filter(|list| list.edge() == first);
            let count = |told: fn(u8, u8) -> bool| {
                under().filter(|list| later(list).into_iter().any(|edge| told(first, edge))).count()
            };
            assert!(count(|first, edge| edge == first) > 150);
            assert!(count(|first, edge| edge == 1 - first) > 80);
            assert!(count(|_, edge| edge > 1) > 50);
        }
    }
}
