//! GETATTR's answer.

use super::pool::Pool;
use super::reply::Reply;

const SUPPORTED_ATTRS: usize = 0;
const SIZE: usize = 4;
const SPACE_USED: usize = 45;
const CLONE_BLKSIZE: usize = 77;
const SPACE_FREED: usize = 78;

/// The bitmap of these.
const SUPPORTED: [u32; 3] = [0x11, 0x2000, 0x6000];

/// One file, to be asked for its attributes.
pub(super) struct Gauge<'a> {
    pub block_size: u64,
    pub size: u64,
    pub words: &'a [u32],
    pub pool: &'a mut Pool,
}

impl Gauge<'_> {
    /// Writes which of the attributes asked for there are, and their values.
    pub fn answer(&mut self, asked: &[u32], reply: &mut Reply) {
        let mut found = [0; SUPPORTED.len()];
        for ((found, asked), supported) in found.iter_mut().zip(asked).zip(SUPPORTED) {
            *found = asked & supported;
        }
        let last = found.iter().rposition(|&word| word != 0);
        put_bitmap(&found[..last.map_or(0, |last| last + 1)], reply);
        let length = reply.at();
        reply.u32(0);
        let values = reply.at();
        self.put_values(found, reply);
        reply.set(length, (reply.at() - values) as u32);
    }

    fn put_values(&mut self, found: [u32; SUPPORTED.len()], reply: &mut Reply) {
        let has = |attribute: usize| found[attribute / 32] >> (attribute % 32) & 1 == 1;
        if has(SUPPORTED_ATTRS) {
            put_bitmap(&SUPPORTED, reply);
        }
        if has(SIZE) {
            reply.u64(self.size);
        }
        if has(SPACE_USED) {
            let used = self.words.iter().filter(|&&word| word != 0).count();
            reply.u64(self.block_size * used as u64);
        }
        if has(CLONE_BLKSIZE) {
            reply.u32(self.block_size as u32);
        }
        if has(SPACE_FREED) {
            let freed = self.pool.held_only_by(self.words) + self.pool.owed(self.words);
            reply.u64(self.block_size * u64::from(freed));
        }
    }
}

fn put_bitmap(words: &[u32], reply: &mut Reply) {
    reply.u32(words.len() as u32);
    words.iter().for_each(|&word| reply.u32(word));
}
