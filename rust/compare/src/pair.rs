//! Two servers side by side, each with its own store and reply buffer.

use std::borrow::Cow;

use second::{Geometry, Store, REPLY_MIN};

use crate::difference::{
    answers_differ, observations_differ, slices_differ, tables_differ, Difference,
};
use crate::list::{Call, Step, View, Words};
use crate::observed::{Observed, OnCopy};
use crate::server::{Served, Server};
use crate::wire::{self, Outcome};

/// The longest reply buffer that a call is given.
pub(crate) const REPLY_MAX: usize = REPLY_MIN + 64;

/// What tables and reply buffers hold before the first call.
const FILL: u8 = 0xa5;

struct Side<'a> {
    server: &'a dyn Server,
    store: Store,
    reply: Vec<u8>,
}

impl Side<'_> {
    fn step(&mut self, geometry: &Geometry, step: &Step) -> Observed {
        match step {
            Step::Damage(damage) => {
                damage.apply(&mut self.store);
                judge(self.server, geometry, &self.store)
            }
            Step::Serve(call) if call.lent.is_usual() => {
                let served = self.serve(geometry, call);
                Observed {
                    served: Some(served),
                    ..judge(self.server, geometry, &self.store)
                }
            }
            Step::Serve(call) => self.serve_on_copy(geometry, call),
            Step::Show(view) => self.show(geometry, view),
        }
    }

    fn serve(&mut self, geometry: &Geometry, call: &Call) -> Served {
        let reply = &mut self.reply[..call.reply_length];
        let request = call.request.bytes();
        self.server
            .serve(geometry, &mut self.store, &call.verifier, &request, reply)
    }

    fn show(&self, geometry: &Geometry, view: &View) -> Observed {
        let geometry = view.lent.geometry.as_ref().unwrap_or(geometry);
        let store = match view.lent.lengths[..] {
            [] => Cow::Borrowed(&self.store),
            _ => Cow::Owned(view.lent.tables(&self.store)),
        };
        let page = view.page.bytes();
        let View { file, slot, .. } = *view;
        let shown = self.server.slot_view(geometry, &store, &page, file, slot);
        Observed {
            shown: Some(shown),
            ..judge(self.server, geometry, &store)
        }
    }

    fn serve_on_copy(&mut self, geometry: &Geometry, call: &Call) -> Observed {
        let geometry = call.lent.geometry.as_ref().unwrap_or(geometry);
        let own = call.lent.tables(&self.store);
        let kept = std::mem::replace(&mut self.store, own);
        let served = self.serve(geometry, call);
        let served_tables = std::mem::replace(&mut self.store, kept);
        let mut tables = served_tables.clone();
        let emptied = self.server.make_empty(geometry, &mut tables);
        Observed {
            served: Some(served),
            on_copy: Some(OnCopy {
                emptied,
                tables: [served_tables.clone(), tables],
            }),
            ..judge(self.server, geometry, &served_tables)
        }
    }
}

fn judge(server: &dyn Server, geometry: &Geometry, store: &Store) -> Observed {
    Observed {
        served: None,
        shown: None,
        surveyed: server.survey(geometry, store),
        on_copy: None,
    }
}

pub(crate) struct Pair<'a> {
    pub geometry: Geometry,
    sides: [Side<'a>; 2],
    steps: usize,
}

impl<'a> Pair<'a> {
    /// Both make an empty store of tables that hold something else.
    pub fn new(geometry: Geometry, servers: [&'a dyn Server; 2]) -> Result<Pair<'a>, Difference> {
        let sides = servers.map(|server| Side {
            server,
            store: filled(&geometry),
            reply: vec![FILL; REPLY_MAX],
        });
        let mut pair = Pair {
            geometry,
            sides,
            steps: 0,
        };
        let made = pair
            .sides
            .each_mut()
            .map(|side| side.server.make_empty(&geometry, &mut side.store));
        match answers_differ("make_empty", &made[0], &made[1]).or_else(|| pair.stores_differ()) {
            None => Ok(pair),
            Some(what) => Err(Difference {
                steps: 0,
                what,
                answers: made.map(|number| number.to_string()),
            }),
        }
    }

    pub fn step(&mut self, step: &Step) -> Result<Observed, Difference> {
        self.steps += 1;
        let geometry = self.geometry;
        let [left, right] = self.sides.each_mut().map(|side| side.step(&geometry, step));
        let difference = observations_differ(&left, &right)
            .or_else(|| self.stores_differ())
            .or_else(|| slices_differ("reply", &self.sides[0].reply, &self.sides[1].reply))
            .or_else(|| self.unreadable(&left));
        match difference {
            None => Ok(left),
            Some(what) => Err(Difference {
                steps: self.steps,
                what,
                answers: [self.show(0, &left), self.show(1, &right)],
            }),
        }
    }

    pub fn store(&self) -> &Store {
        &self.sides[1].store
    }

    fn stores_differ(&self) -> Option<String> {
        let [left, right] = self.sides.each_ref().map(|side| &side.store);
        tables_differ(left, right)
    }

    /// The results of a call that was served.
    pub fn outcome(&self, observed: &Observed) -> Option<Outcome> {
        let served = observed.served.filter(|served| served.number == 0)?;
        wire::outcome(self.sides[0].reply.get(..served.written as usize)?)
    }

    fn unreadable(&self, observed: &Observed) -> Option<String> {
        let served = observed.served.is_some_and(|served| served.number == 0);
        (served && self.outcome(observed).is_none())
            .then(|| "the reply isn't laid out as one".into())
    }

    fn show(&self, side: usize, observed: &Observed) -> String {
        let written = observed.served.map_or(0, |served| served.written);
        let reply = &self.sides[side].reply;
        let reply = &reply[..reply.len().min(written as usize)];
        format!("{observed}\n   reply {}", Words(reply))
    }
}

/// Tables of the right lengths that hold anything.
fn filled(geometry: &Geometry) -> Store {
    let mut store = Store::empty(geometry);
    store.sizes.fill(FILL.into());
    store.words.fill(FILL.into());
    store.mem.fill(FILL);
    store
}
