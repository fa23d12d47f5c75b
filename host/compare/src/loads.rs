//! What loads and overlays must leave, by the blocks of their tapes alone.

use crate::blocks::blocks;
use crate::generator::Case;
use protocol::{Answer, Listed, Request};
use std::collections::BTreeMap;

/// A tape laid over what the load of another one left.
pub struct Laid<'c> {
    /// The store before the load.
    pub store: &'c Listed,
    /// The tape that was loaded.
    pub first: &'c [u8],
    /// The store after the load.
    pub left: Listed,
    /// The tape that is laid over it.
    pub second: &'c [u8],
}

impl<'c> Laid<'c> {
    /// That of a case with a second tape, where its load is done.
    pub fn new(case: &'c Case, answer: &Answer) -> Option<Self> {
        let (Request::Load { store, tape }, Answer::Done { .. }) = (&case.request, answer) else {
            return None;
        };
        Some(Laid {
            store,
            first: tape,
            left: laid_over(&zeros(store.size), tape),
            second: case.second.as_ref()?,
        })
    }

    /// The request that lays it over.
    pub fn request(&self) -> Request {
        Request::Overlay {
            store: self.left.clone(),
            tape: self.second.to_vec(),
        }
    }
}

/// What a cell holds.
pub fn held(store: &Listed, index: usize) -> u32 {
    let place = store
        .cells
        .binary_search_by_key(&index, |&(index, _)| index);
    place.map_or(0, |place| store.cells[place].1)
}

/// So many cells, with word and key in the first and the last of them.
pub fn old_cells(size: usize) -> Listed {
    let ends = (0..size.min(64)).chain(64.max(size.saturating_sub(64))..size);
    let cells = ends.map(|index| (index, 0x0700_0001)).collect();
    Listed { size, cells }
}

/// So many cells of zero.
fn zeros(size: usize) -> Listed {
    let cells = Vec::new();
    Listed { size, cells }
}

/// The store with the blocks of a tape in it.
fn laid_over(store: &Listed, tape: &[u8]) -> Listed {
    let mut cells: BTreeMap<usize, u32> = store.cells.iter().copied().collect();
    for block in blocks(tape) {
        cells.extend(block.cells.clone().zip(block.values()));
    }
    cells.retain(|_, value| *value != 0);
    Listed {
        size: store.size,
        cells: cells.into_iter().collect(),
    }
}

/// The cells that differ, with what they hold afterwards.
pub fn changes(before: &Listed, after: &Listed) -> Vec<(usize, u32)> {
    let cleared = before.cells.iter().map(|&(index, _)| (index, 0));
    let mut cells: BTreeMap<usize, u32> = cleared.collect();
    cells.extend(after.cells.iter().copied());
    cells.retain(|&index, value| *value != held(before, index));
    cells.into_iter().collect()
}

/// For a load or overlay that was done: the same again, and for a load the
/// overlay of its tape on cells of zero, with the answers that they must have.
pub fn done_again(request: &Request, answer: &Answer) -> Vec<(Request, Answer)> {
    let Answer::Done { control, .. } = answer else {
        return Vec::new();
    };
    let done = |changed| Answer::Done {
        control: *control,
        changed,
    };
    match request {
        Request::Load { store, tape } => {
            let zeros = zeros(store.size);
            let left = laid_over(&zeros, tape);
            let overlay = Request::Overlay {
                store: zeros,
                tape: tape.clone(),
            };
            let load = (request.clone(), done(changes(store, &left)));
            vec![load, (overlay, done(left.cells))]
        }
        Request::Overlay { store, tape } => {
            let left = laid_over(store, tape);
            vec![(request.clone(), done(changes(store, &left)))]
        }
        _ => Vec::new(),
    }
}
