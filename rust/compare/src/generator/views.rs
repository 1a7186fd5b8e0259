//! Slots to show, with good and wrong arguments.

use super::Maker;
use crate::list::{Lent, Page, View};

impl Maker<'_> {
    /// A slot, mostly one that can be shown.
    pub fn view(&mut self) -> View {
        let (files, slots) = (self.geometry.files, self.geometry.slots);
        let file = self.file() as u64;
        let slot = self.slot();
        View {
            file: self.number(file, files),
            slot: self.number(slot, slots),
            page: self.page(),
            lent: self.wrongly_lent(),
        }
    }

    /// A number that is below the bound, or rarely one that isn't.
    fn number(&mut self, good: u64, bound: u64) -> u64 {
        match self.rarely(12) {
            true => self
                .random
                .pick(&[bound, bound + 1, good + (1 << 32), 1 << 63, u64::MAX]),
            false => good,
        }
    }

    /// A page, mostly one of the right length and all zero.
    fn page(&mut self) -> Page {
        let b = self.block_size() as usize;
        let mut page = Page::zeros(b);
        if self.rarely(12) {
            page.length = self.random.pick(&[0, 1, b / 2, b - 1, b + 1, 2 * b]);
        }
        if self.rarely(12) {
            let any = self.random.below(b as u64) as usize;
            let at = self.random.pick(&[0, any, b - 1]);
            page.set = Some((at, self.random.pick(&[1, 128, 255])));
        }
        page
    }

    /// Another geometry or another length of a table, rarely.
    fn wrongly_lent(&mut self) -> Lent {
        let mut lent = Lent::default();
        if self.rarely(16) {
            lent.geometry = Some(self.other_geometry());
        }
        if self.rarely(16) {
            lent.lengths.push(self.other_length());
        }
        lent
    }
}
