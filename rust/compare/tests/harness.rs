//! The comparison itself, tried on servers with one fault each.

use compare::wire::{self, Told};
use compare::{
    differs, try_damaged, try_seed, Found, List, Second, Served, Server, Shown, Step, Surveyed,
    Tally,
};
use second::{Geometry, Store, NOWHERE};

/// The plain program, with a fault in what it serves.
struct Serving<F>(F);

/// A served call, as the fault sees and changes it.
struct Scene<'a> {
    geometry: &'a Geometry,
    before: &'a Store,
    after: &'a mut Store,
    reply: &'a mut [u8],
    answer: &'a mut Served,
}

impl Scene<'_> {
    /// The blocks that slots hold, by number from 1 on.
    fn holders(words: &[u32], block: u32) -> usize {
        words.iter().filter(|word| *word / 2 == block).count()
    }

    /// Whether a slot took a block of its own in place of a shared one.
    fn is_unshared(&self) -> bool {
        let (before, after) = (&self.before.words, &self.after.words);
        before.iter().zip(after).any(|(old, new)| {
            let (old, new) = (old / 2, new / 2);
            let shared = old != 0 && Scene::holders(before, old) > 1;
            shared && new != 0 && new != old && Scene::holders(after, new) == 1
        })
    }

    /// Whether two slots of one file hold the same block.
    fn is_shared_in_a_file(&self) -> bool {
        let mut files = self.after.words.chunks(self.geometry.slots as usize);
        files.any(|words| {
            let mut held = words.iter().map(|word| word / 2);
            held.any(|block| block != 0 && Scene::holders(words, block) > 1)
        })
    }

    /// Whether the reply ends in GETATTR's last attribute.
    fn ends_in_space_freed(&self) -> bool {
        let reply = &self.reply[..self.answer.written as usize];
        let last = wire::outcome(reply).and_then(|mut outcome| outcome.results.pop());
        last.is_some_and(|last| match last.told {
            Told::Attributes(bitmap) => wire::has_bit(&bitmap, 78),
            _ => false,
        })
    }

    /// Whether COPY is the only edit that the call ran, and is OK.
    fn is_copy(&self) -> bool {
        let reply = &self.reply[..self.answer.written as usize];
        let Some(outcome) = wire::outcome(reply).filter(|_| self.answer.number == 0) else {
            return false;
        };
        let edits = outcome.results.iter();
        let mut edits = edits.filter(|result| wire::EDITS.contains(&result.number));
        let copy = edits.next();
        copy.is_some_and(|copy| (copy.number, copy.status) == (wire::COPY, 0))
            && edits.next().is_none()
    }

    /// For each slot its block before and after, by number from 1 on; 0 for a hole.
    fn blocks(&self) -> impl Iterator<Item = [u32; 2]> + '_ {
        let words = self.before.words.iter().zip(&self.after.words);
        words.map(|(old, new)| [old / 2, new / 2])
    }

    /// The blocks that were held before the call and are free after it.
    fn freed(&self) -> Vec<usize> {
        let blocks = 1..=self.geometry.blocks as u32;
        let is_freed = |block: &u32| {
            Scene::holders(&self.before.words, *block) > 0
                && Scene::holders(&self.after.words, *block) == 0
        };
        blocks.filter(is_freed).map(|b| b as usize - 1).collect()
    }
}

impl<F: Fn(Scene)> Server for Serving<F> {
    fn make_empty(&self, geometry: &Geometry, store: &mut Store) -> u32 {
        Second.make_empty(geometry, store)
    }

    fn survey(&self, geometry: &Geometry, store: &Store) -> Surveyed {
        Second.survey(geometry, store)
    }

    fn slot_view(
        &self,
        geometry: &Geometry,
        store: &Store,
        page: &[u8],
        file: u64,
        slot: u64,
    ) -> Shown {
        Second.slot_view(geometry, store, page, file, slot)
    }

    fn serve(
        &self,
        geometry: &Geometry,
        store: &mut Store,
        verifier: &[u8],
        request: &[u8],
        reply: &mut [u8],
    ) -> Served {
        let before = store.clone();
        let mut answer = Second.serve(geometry, store, verifier, request, reply);
        (self.0)(Scene {
            geometry,
            before: &before,
            after: store,
            reply,
            answer: &mut answer,
        });
        answer
    }
}

/// The plain program, judging another store than the one it is given.
struct Judging<F>(F);

impl<F: Fn(&mut Store)> Judging<F> {
    fn seen(&self, store: &Store) -> Store {
        let mut store = store.clone();
        (self.0)(&mut store);
        store
    }
}

impl<F: Fn(&mut Store)> Server for Judging<F> {
    fn make_empty(&self, geometry: &Geometry, store: &mut Store) -> u32 {
        Second.make_empty(geometry, store)
    }

    fn survey(&self, geometry: &Geometry, store: &Store) -> Surveyed {
        Second.survey(geometry, &self.seen(store))
    }

    fn slot_view(
        &self,
        geometry: &Geometry,
        store: &Store,
        page: &[u8],
        file: u64,
        slot: u64,
    ) -> Shown {
        Second.slot_view(geometry, store, page, file, slot)
    }

    fn serve(
        &self,
        geometry: &Geometry,
        store: &mut Store,
        verifier: &[u8],
        request: &[u8],
        reply: &mut [u8],
    ) -> Served {
        Second.serve(geometry, store, verifier, request, reply)
    }
}

/// A slot to show.
struct Asked<'a> {
    geometry: &'a Geometry,
    store: &'a Store,
    page: &'a [u8],
    file: u64,
    slot: u64,
}

impl Asked<'_> {
    fn shown(&self) -> Shown {
        Second.slot_view(self.geometry, self.store, self.page, self.file, self.slot)
    }
}

/// The plain program, with a fault in the slots that it shows.
struct Showing(fn(Asked) -> Shown);

impl Server for Showing {
    fn make_empty(&self, geometry: &Geometry, store: &mut Store) -> u32 {
        Second.make_empty(geometry, store)
    }

    fn survey(&self, geometry: &Geometry, store: &Store) -> Surveyed {
        Second.survey(geometry, store)
    }

    fn slot_view(
        &self,
        geometry: &Geometry,
        store: &Store,
        page: &[u8],
        file: u64,
        slot: u64,
    ) -> Shown {
        (self.0)(Asked {
            geometry,
            store,
            page,
            file,
            slot,
        })
    }

    fn serve(
        &self,
        geometry: &Geometry,
        store: &mut Store,
        verifier: &[u8],
        request: &[u8],
        reply: &mut [u8],
    ) -> Served {
        Second.serve(geometry, store, verifier, request, reply)
    }
}

/// The shortest of the first differences of a faulty server. From each of their lists nothing can be
/// left out.
fn found(server: &dyn Server) -> Found {
    let servers = [server, &Second];
    let found = (1..=300)
        .filter_map(|seed| try_seed(seed, servers, &mut Tally::default()).err())
        .take(3)
        .inspect(|found| assert_shortest(&found.list, servers));
    *found
        .min_by_key(|found| operations(&found.list))
        .expect("the fault is found")
}

fn assert_shortest(list: &List, servers: [&dyn Server; 2]) {
    assert!(differs(list, servers).is_some());
    for shorter in shorter_lists(list) {
        assert!(differs(&shorter, servers).is_none(), "{list}");
    }
}

/// The list without one step or one operation, in every way.
fn shorter_lists(list: &List) -> Vec<List> {
    let mut lists = Vec::new();
    for (index, step) in list.steps.iter().enumerate() {
        let mut shorter = list.clone();
        shorter.steps.remove(index);
        lists.push(shorter);
        if let Step::Serve(call) = step {
            for place in 0..call.request.operations.len() {
                let mut call = call.clone();
                call.request.operations.remove(place);
                let mut shorter = list.clone();
                shorter.steps[index] = Step::Serve(call);
                lists.push(shorter);
            }
        }
    }
    lists
}

fn operations(list: &List) -> usize {
    let of = |step: &Step| match step {
        Step::Serve(call) => call.request.operations.len(),
        Step::Show(_) | Step::Damage(_) => 0,
    };
    list.steps.iter().map(of).sum()
}

#[test]
fn the_plain_program_agrees_with_itself_and_meets_everything() {
    let mut tally = Tally::default();
    for seed in 1..=2500 {
        let same = try_seed(seed, [&Second, &Second], &mut tally);
        assert!(same.is_ok(), "seed {seed}");
    }
    assert_eq!(tally.lists, 2500);
    assert_eq!(tally.missing(), [""; 0]);
    assert_eq!(tally.strange(), [""; 0]);
}

#[test]
fn a_reply_byte_of_a_write_into_a_shared_slot() {
    let found = found(&Serving(|scene: Scene| {
        if scene.is_unshared() {
            scene.reply[scene.answer.written as usize - 1] ^= 1;
        }
    }));
    assert!(found.difference.what.starts_with("reply at"));
    // A handle, a WRITE, a CLONE and one more edit, with the handles for them.
    assert!(operations(&found.list) <= 8, "{}", found.list);
}

#[test]
fn a_space_freed_where_a_file_holds_a_block_twice() {
    let found = found(&Serving(|scene: Scene| {
        if scene.ends_in_space_freed() && scene.is_shared_in_a_file() {
            scene.reply[scene.answer.written as usize - 1] ^= 1;
        }
    }));
    assert!(found.difference.what.starts_with("reply at"));
    // A handle, a WRITE and a CLONE, with the handle for it; GETATTR, perhaps in another call.
    assert!(operations(&found.list) <= 6, "{}", found.list);
    assert!(found.list.to_string().contains("CLONE"));
}

#[test]
fn a_size_that_is_off_by_one() {
    let found = found(&Serving(|scene: Scene| {
        let sizes = scene.after.sizes.iter_mut().zip(&scene.before.sizes);
        for (size, before) in sizes {
            *size += u64::from(*size > *before);
        }
    }));
    assert_eq!(found.list.steps.len(), 1);
    assert_eq!(operations(&found.list), 2, "{}", found.list);
}

#[test]
fn a_freed_block_that_is_cleared() {
    let found = found(&Serving(|scene: Scene| {
        let b = scene.geometry.block_size as usize;
        for block in scene.freed() {
            scene.after.mem[block * b..(block + 1) * b].fill(0);
        }
    }));
    assert!(found.difference.what.starts_with("memory at"));
    assert!(operations(&found.list) <= 8, "{}", found.list);
}

#[test]
fn a_reserve_that_goes_where_a_copy_makes_a_hole() {
    let found = found(&Serving(|scene: Scene| {
        if scene.is_copy() {
            let words = scene.after.words.iter_mut().zip(&scene.before.words);
            for (word, before) in words {
                if *word == 1 && before / 2 != 0 {
                    *word = 0;
                }
            }
        }
    }));
    assert!(found.list.to_string().contains("COPY"));
    // A source with a hole, a reserved target with a block, and the COPY, with the handles for them.
    assert!(operations(&found.list) <= 9, "{}", found.list);
}

#[test]
fn a_block_that_a_copy_frees_and_takes() {
    let found = found(&Serving(|scene: Scene| {
        let freed: Vec<u32> = scene
            .blocks()
            .filter(|&[old, new]| old != 0 && new == 0)
            .map(|[old, _]| old)
            .collect();
        let taken = scene
            .blocks()
            .any(|[old, new]| new != old && freed.contains(&new));
        if taken && scene.is_copy() {
            scene.reply[scene.answer.written as usize - 1] ^= 1;
        }
    }));
    assert!(found.difference.what.starts_with("reply at"));
    assert!(found.list.to_string().contains("COPY"));
    assert!(operations(&found.list) <= 12, "{}", found.list);
}

#[test]
fn bytes_read_of_an_operation_that_does_not_decode() {
    let found = found(&Serving(|scene: Scene| {
        if scene.reply.starts_with(&10064u32.to_be_bytes()) && scene.answer.number == 0 {
            scene.answer.read += 4;
        }
    }));
    assert!(found.difference.what.ends_with("of serve"));
    assert_eq!(operations(&found.list), 1, "{}", found.list);
}

/// The first difference on the damaged requests.
fn found_damaged(server: &dyn Server) -> Found {
    let servers = [server, &Second];
    let found = try_damaged(servers, &mut Tally::default()).err();
    *found.expect("the fault is found")
}

#[test]
fn a_place_that_is_one_off() {
    let server = Serving(|scene: Scene| {
        if scene.answer.place != NOWHERE as u64 {
            scene.answer.place += 1;
        }
    });
    for found in [found(&server), found_damaged(&server)] {
        assert!(found.difference.what.ends_with("of serve"));
        assert_eq!(found.list.steps.len(), 1, "{}", found.list);
    }
}

#[test]
fn a_place_that_is_told_without_badxdr() {
    let server = Serving(|scene: Scene| {
        let bad = scene.reply.starts_with(&10036u32.to_be_bytes());
        if scene.answer.number == 0 && !bad {
            scene.answer.place = scene.answer.read;
        }
    });
    for found in [found(&server), found_damaged(&server)] {
        assert!(found.difference.what.ends_with("of serve"));
        assert_eq!(found.list.steps.len(), 1, "{}", found.list);
    }
}

#[test]
fn a_refused_call_that_writes() {
    for number in 1..=6 {
        let found = found(&Serving(|scene: Scene| {
            let refused = scene.answer.number == number;
            if let Some(byte) = scene.reply.last_mut().filter(|_| refused) {
                *byte ^= 1;
            }
        }));
        assert!(found.difference.what.starts_with("reply at"));
    }
}

#[test]
fn a_byte_past_a_size_that_goes_unseen() {
    let found = found(&Judging(|store: &mut Store| store.mem.fill(0)));
    assert!(found.difference.what.ends_with("of survey"));
    let damages = |step: &&Step| matches!(step, Step::Damage(_));
    assert_eq!(found.list.steps.iter().filter(damages).count(), 1);
    assert!(found.list.to_string().contains("WRITE"));
}

#[test]
fn a_reserve_that_is_counted_for_holes_alone() {
    let found = found(&Judging(|store: &mut Store| {
        for word in &mut store.words {
            *word &= if *word > 1 { !1 } else { !0 };
        }
    }));
    // The clone of a reserved slot owes a block.
    assert!(found.difference.what.ends_with("of survey"));
    assert!(found.list.to_string().contains("CLONE"));
}

#[test]
fn a_slot_that_is_shown_from_another_place() {
    let next_block = found(&Showing(|asked| {
        let mut shown = asked.shown();
        if shown.part[0] == 0 {
            shown.part[1] += asked.geometry.block_size;
        }
        shown
    }));
    assert!(next_block.difference.what.starts_with("part shown at 1"));
    // The block of a slot in the memory has been written.
    assert!(operations(&next_block.list) >= 2, "{}", next_block.list);
    let in_memory = found(&Showing(|asked| {
        let mut shown = asked.shown();
        shown.part[0] = 0;
        shown
    }));
    assert!(in_memory.difference.what.starts_with("part shown at 0"));
    let whole_page = found(&Showing(|asked| {
        let mut shown = asked.shown();
        shown.part[2] = shown.part[2].max(asked.page.len() as u64);
        shown
    }));
    assert!(whole_page.difference.what.starts_with("part shown at 2"));
    // A slot of the empty store, and perhaps a damage for its refusal.
    assert_eq!(in_memory.list.steps.len(), 1, "{}", in_memory.list);
    assert!(whole_page.list.steps.len() <= 2, "{}", whole_page.list);
}

#[test]
fn a_byte_of_a_slot_that_is_shown() {
    let found = found(&Showing(|asked| {
        let mut shown = asked.shown();
        if let Some(byte) = shown.bytes.last_mut() {
            *byte ^= 1;
        }
        shown
    }));
    assert!(found.difference.what.starts_with("bytes shown at"));
    assert_eq!(found.list.steps.len(), 1, "{}", found.list);
}

#[test]
fn a_slot_that_is_not_refused() {
    let faults: [fn(Asked) -> Shown; 5] = [
        // A page of another length; one that isn't all zero.
        |asked| {
            let mut page = asked.page.to_vec();
            page.resize(asked.geometry.block_size.min(4096) as usize, 0);
            let page = &page[..];
            Asked { page, ..asked }.shown()
        },
        |asked| {
            let page = &vec![0; asked.page.len()];
            Asked { page, ..asked }.shown()
        },
        // A slot past the last one, taken as the next file's; numbers cut to 32 bits.
        |asked| {
            let slots = asked.geometry.slots.max(1);
            let at = asked.file.saturating_mul(slots).saturating_add(asked.slot);
            let (file, slot) = (at / slots, at % slots);
            Asked {
                file,
                slot,
                ..asked
            }
            .shown()
        },
        |asked| {
            let file = u64::from(asked.file as u32);
            Asked { file, ..asked }.shown()
        },
        |asked| {
            let slot = u64::from(asked.slot as u32);
            Asked { slot, ..asked }.shown()
        },
    ];
    for fault in faults {
        let found = found(&Showing(fault));
        assert!(found.difference.what.ends_with("of slot_view"));
        assert_eq!(found.list.steps.len(), 1, "{}", found.list);
        assert!(found.list.to_string().contains("show slot"));
    }
}
