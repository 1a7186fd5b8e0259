//! Each operation in a request that is cut after every byte, of which every byte is changed, or both.

use second::GEOMETRY;

use crate::list::{Call, Edit, Lent, List, Request, Step};
use crate::pair::{Pair, REPLY_MAX};
use crate::seed::Found;
use crate::server::Server;
use crate::tally::Tally;
use crate::wire::{self, Transfer, ZEROS};

/// Serves the damaged requests, each on a store of its own.
pub fn try_damaged(servers: [&dyn Server; 2], tally: &mut Tally) -> Result<(), Box<Found>> {
    for operation in operations() {
        let whole = request(&operation);
        for edits in edits(&whole.bytes()) {
            let damaged = Request {
                edits,
                ..whole.clone()
            };
            let list = List {
                geometry: GEOMETRY,
                steps: vec![step(before()), step(damaged)],
            };
            serve(&list, servers, tally)
                .map_err(|difference| Found::new("damaged".into(), list, difference, servers))?;
            tally.damaged += 1;
        }
    }
    Ok(())
}

fn serve(
    list: &List,
    servers: [&dyn Server; 2],
    tally: &mut Tally,
) -> Result<(), crate::Difference> {
    let mut pair = Pair::new(list.geometry, servers)?;
    for step in &list.steps {
        let observed = pair.step(step)?;
        tally.add(&observed, pair.outcome(&observed).as_ref());
    }
    Ok(())
}

fn step(request: Request) -> Step {
    Step::Serve(Call {
        request,
        verifier: vec![7; 8],
        reply_length: REPLY_MAX,
        lent: Lent::default(),
    })
}

/// What the store holds: two slots of file 0, one of file 1.
fn before() -> Request {
    Request::of(vec![
        wire::putfh_file(0),
        wire::write(ZEROS, 0, 2, &[5; 600]),
        wire::putfh_file(1),
        wire::write(ZEROS, 0, 0, &[6; 9]),
    ])
}

/// Both handles are set, and the operation stands between others.
fn request(operation: &[u8]) -> Request {
    Request {
        tag: b"where".to_vec(),
        ..Request::of(vec![
            wire::putfh_file(0),
            wire::int(wire::SAVEFH),
            wire::putfh(&[0, 0, 0, 1]),
            operation.to_vec(),
            wire::int(wire::GETFH),
        ])
    }
}

/// Every operation, with every pad that its bytes can have.
fn operations() -> Vec<Vec<u8>> {
    let transfer = Transfer {
        stateids: [ZEROS; 2],
        offsets: [0, 512],
        count: 512,
    };
    let bare = [wire::GETFH, wire::SAVEFH, wire::RESTOREFH].map(wire::int);
    let looks = [wire::READ, wire::READ_PLUS, wire::SEEK];
    let regions = [wire::ALLOCATE, wire::DEALLOCATE];
    let mut operations = bare.to_vec();
    operations.extend((0..=4).map(|words| wire::getattr(&[0x11, 0x2000, 0x6000, 1][..words])));
    operations.extend((0..=5).map(|length| wire::putfh(&[1; 5][..length])));
    operations.extend(looks.map(|number| wire::look(number, ZEROS, 3, 1)));
    operations.extend((0..=4).map(|length| wire::write(ZEROS, 1, 2, &[9; 4][..length])));
    operations.extend(regions.map(|number| wire::region(number, ZEROS, 100, 1000)));
    operations.extend([
        transfer.clone_op(),
        transfer.copy_op([1, 1, 0]),
        transfer.copy_op([0, 0, 2]),
    ]);
    operations
}

/// Cut after each byte; each byte with each bit changed, and with all; and a byte changed where the
/// request ends up to three bytes behind it.
fn edits(whole: &[u8]) -> Vec<Vec<Edit>> {
    let cut = |length| Edit::Cut { length };
    let changed = |at: usize, mask: u8| Edit::Set {
        at,
        byte: whole[at] ^ mask,
    };
    let masks = || (0..8).map(|bit| 1 << bit).chain([255]);
    let cuts = (0..=whole.len()).map(|length| vec![cut(length)]);
    let places = 0..whole.len();
    let changes = places
        .clone()
        .flat_map(|at| masks().map(move |mask| vec![changed(at, mask)]));
    let both = places.flat_map(|at| (1..=3).map(move |n| vec![changed(at, 1), cut(at + n)]));
    cuts.chain(changes).chain(both).collect()
}
