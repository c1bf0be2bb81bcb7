//! Demand 3 by brute force, after a list that starts with an accepted open, for each of the panels.

use super::area::Area;
use super::{Difference, Judge, Judged};
use crate::list::{List, Other};
use crate::random::Random;
use crate::tally::Tally;
use calls::layout::*;
use calls::{Answer, Call};

/// The most lines that can be owing to a panel: all but one of a band in hand, and all bands owed.
const MOST_LINES: u32 = 95;

/// A refused call comes before one in so many sends.
const REFUSED: usize = 48;

/// An open that is refused for its edge flag.
const OTHER_EDGE: Call =
    Call::Open { graphics_base: 4096, text_base: 8192, version: 1, keys: [0; 8], edge: 2 };

impl Judge {
    /// For each panel of the unit: L is at most 95 and every differing pixel lies in what is owed of its own
    /// band, or in hand. Then all are polled, each at its own pace, with refused calls between: the first
    /// send that names a panel is idle exactly when its L is 0, each lowers the L of its panel by one and
    /// leaves the others', and after L of them no pixel of the panel differs.
    pub(super) fn demand3(&mut self, list: &List, tally: &mut Tally) -> Judged<()> {
        let left = self.lines();
        for (panel, lines) in left.into_iter().enumerate() {
            if lines > MOST_LINES {
                return Err(Difference::new(format!("L of panel {panel} is {lines}")));
            }
        }
        let panels = list.start.panels;
        (0..panels).try_for_each(|panel| self.check_places(panel))?;
        self.come_level(panels, left, &mut self.order_of(list), tally)
    }

    /// The lines in hand and owed of each panel.
    fn lines(&self) -> [u32; PANELS] {
        [0, 1, 2, 3].map(|panel| {
            let places = (0..BANDS).map(|band| owed(panel, band)).chain([in_hand(panel)]);
            places.filter_map(|place| self.area(place)).map(Area::height).sum()
        })
    }

    /// The rectangle that starts at this place of the record.
    fn area(&self, place: usize) -> Option<Area> {
        Area::at(&self.own.model.record, place)
    }

    /// Every differing pixel lies in the rectangle in hand or in the one owed of its own band; those of other
    /// bands don't count.
    fn check_places(&self, panel: usize) -> Judged<()> {
        for y in 0..HEIGHT {
            let places = [in_hand(panel), owed(panel, y / BAND)].map(|place| self.area(place));
            let covered = covered(&places, y as u32);
            for (byte, covered) in covered.into_iter().enumerate() {
                if self.differing(panel, y * LINE + byte) & !covered != 0 {
                    let band = y / BAND;
                    return Err(Difference::new(format!(
                        "a pixel of panel {panel} in byte {byte} of line {y} differs, and lies neither in hand nor in what is owed of band {band}: {places:?}"
                    )));
                }
            }
        }
        Ok(())
    }

    /// An order of polls that differs from list to list, and is the same each time for one.
    fn order_of(&self, list: &List) -> Random {
        let record = self.own.model.record.iter();
        Random::new(record.fold(list.start.seed, |sum, byte| sum.wrapping_mul(31).wrapping_add(*byte as u64)))
    }

    /// Poll until every one of the panels was idle once; so many lines are `left` for each.
    fn come_level(
        &mut self,
        panels: usize,
        mut left: [u32; PANELS],
        order: &mut Random,
        tally: &mut Tally,
    ) -> Judged<()> {
        let mut paces = order.paces();
        paces[panels..].fill(0);
        while paces != [0; PANELS] {
            let panel = order.weighted(&paces);
            if order.one_in(REFUSED) {
                self.refuse_between(order, tally)?;
            }
            if self.poll(panel, &mut left, tally)? {
                paces[panel] = 0;
            }
        }
        (0..panels).try_for_each(|panel| self.check_level(panel))
    }

    /// One send to this panel; whether it was idle.
    fn poll(&mut self, panel: usize, left: &mut [u32; PANELS], tally: &mut Tally) -> Judged<bool> {
        let answer = self.own_step(&Call::Send { number: panel as u8 }, tally)?;
        tally.level_sends[panel] += 1;
        let idle_due = left[panel] == 0;
        let idle = answer == Answer::done([0; 4]);
        if idle != idle_due || !answer.accepted() {
            let lines = left[panel];
            return Err(Difference::new(format!("L of panel {panel} is {lines}, a send answers {answer:?}")));
        }
        left[panel] -= !idle as u32;
        if self.lines() != *left {
            return Err(Difference::new(format!(
                "after a send to panel {panel} L of each is {:?}, due is {left:?}",
                self.lines()
            )));
        }
        if left[panel] == 0 {
            self.check_level(panel)?;
        }
        Ok(idle)
    }

    /// A call that is refused: for its numbers, or as it is lent a short panel or a broken record.
    fn refuse_between(&mut self, order: &mut Random, tally: &mut Tally) -> Judged<()> {
        let short = Other { panel_len: PANEL - 1, ..Other::same() };
        let broken = Other { record_bytes: vec![(ROW, ROWS as u8)], ..Other::same() };
        let send = Call::Send { number: order.below(PANELS) as u8 };
        let answer = match order.below(16) {
            0 => self.other_step(&send, &short, tally)?,
            1 => self.other_step(&send, &broken, tally)?,
            2..4 => self.own_step(&Call::SetRow { row: ROWS as u8 }, tally)?,
            4 => self.own_step(&OTHER_EDGE, tally)?,
            5..8 => self.own_step(&Call::DrawPoint { x: 1, y: 1, mode: 4 }, tally)?,
            _ => self.own_step(&Call::Send { number: 4 + order.below(252) as u8 }, tally)?,
        };
        tally.refused_between += 1;
        if answer.accepted() {
            Err(Difference::new("a call that is to be refused is accepted"))
        } else {
            Ok(())
        }
    }

    fn check_level(&self, panel: usize) -> Judged<()> {
        if self.screen() == self.own.model.panels[panel] {
            return Ok(());
        }
        let count: u32 = (0..SCREEN).map(|place| self.differing(panel, place).count_ones()).sum();
        Err(Difference::new(format!("{count} pixels of panel {panel} differ, and its L is 0")))
    }

    /// The differing pixels of a byte, as its bits.
    fn differing(&self, panel: usize, place: usize) -> u8 {
        self.screen()[place] ^ self.own.model.panels[panel][place]
    }
}

/// The pixels of a line that lie in one of these areas, as its bits.
fn covered(places: &[Option<Area>], y: u32) -> [u8; LINE] {
    let here = places.iter().flatten().filter(|area| (area.down.first..=area.down.last).contains(&y));
    here.fold([0; LINE], |line, area| {
        let bits = area.across.bits();
        std::array::from_fn(|byte| line[byte] | bits[byte])
    })
}

#[cfg(test)]
mod tests {
    use super::*;

    /// A judge that stands after an open, with panel 3 level but for the pixel (9, 40) and nothing owed to it.
    fn judge() -> Judge {
        let mut judge = Judge::new(None, false);
        let open = Call::Open { graphics_base: 4096, text_base: 8192, version: 1, keys: [0; 8], edge: 0 };
        model::answer(&open, judge.own.model.lend(&open));
        judge.own.model.record[owed_part(3)].fill(0);
        judge.own.model.panels[3][40 * LINE + 1] = 0x40;
        judge
    }

    fn put(judge: &mut Judge, place: usize, rect: [u16; 4]) {
        judge.own.model.record[place..place + RECT].copy_from_slice(&rect.map(u16::to_le_bytes).concat());
    }

    #[test]
    fn a_differing_pixel_lies_in_its_own_bands_rectangle_or_in_hand() {
        for rect in [[9, 40, 10, 41], [0, 32, 160, 48]] {
            let mut judge = judge();
            put(&mut judge, owed(3, 2), rect);
            assert!(judge.check_places(3).is_ok());
        }
        let mut judge = judge();
        put(&mut judge, in_hand(3), [9, 20, 10, 60]);
        assert!(judge.check_places(3).is_ok());
    }

    #[test]
    fn other_rectangles_do_not_count() {
        assert!(judge().check_places(3).is_err());
        let beside = [[8, 40, 9, 41], [10, 40, 160, 41], [0, 32, 160, 40], [0, 41, 160, 48]];
        for (place, rect) in beside.into_iter().flat_map(|rect| [(owed(3, 2), rect), (in_hand(3), rect)]) {
            let mut judge = judge();
            put(&mut judge, place, rect);
            assert!(judge.check_places(3).is_err(), "{place} {rect:?}");
        }
        // Those of other bands, whatever lines they claim, and of other panels.
        for place in [owed(3, 0), owed(3, 1), owed(3, 3), owed(3, 4), owed(2, 2), in_hand(2)] {
            let mut judge = judge();
            put(&mut judge, place, [0, 0, 160, 80]);
            assert!(judge.check_places(3).is_err(), "{place}");
        }
    }

    #[test]
    fn lines_in_hand_and_of_all_bands_count() {
        let mut judge = judge();
        assert_eq!(judge.lines(), [80, 80, 80, 0]);
        put(&mut judge, in_hand(3), [0, 1, 160, 16]);
        put(&mut judge, owed(3, 0), [3, 2, 4, 3]);
        put(&mut judge, owed(3, 4), [3, 64, 4, 80]);
        assert_eq!(judge.lines(), [80, 80, 80, 15 + 1 + 16]);
    }
}
