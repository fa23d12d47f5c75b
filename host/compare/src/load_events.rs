//! What cases were about, as far as the cells go that no block names: names for
//! `Coverage`.

use crate::blocks::{blocks, Block};
use crate::coverage::holding;
use crate::loads::{held, Laid};
use crate::words::WORD;
use protocol::{Answer, Listed};
use std::ops::Range;

/// All names that the functions here give.
pub const LOAD_EVENTS: [&str; 38] = [
    "load: W0 cleared",
    "load: W1 cleared",
    "load: W2 cleared",
    "load: W3 cleared",
    "load: word 8 cleared",
    "load: word 10 cleared",
    "load: word 12 cleared",
    "load: word 14 cleared",
    "load: word and key cleared",
    "load: word without a key cleared",
    "load: key without a word cleared",
    "load: last cell cleared",
    "load: cell between two blocks cleared",
    "load: every cell cleared",
    "load: more than 65,536 cells cleared",
    "load: zero on the tape for a cell in use",
    "overlay: W0 kept",
    "overlay: W1 kept",
    "overlay: W2 kept",
    "overlay: W3 kept",
    "overlay: word 8 kept",
    "overlay: word 10 kept",
    "overlay: word 12 kept",
    "overlay: word 14 kept",
    "overlay: word and key kept",
    "overlay: word without a key kept",
    "overlay: key without a word kept",
    "overlay: last cell kept",
    "overlay: cell between two blocks kept",
    "overlay: every cell kept",
    "overlay: more than 65,536 cells kept",
    "overlay: zero on the tape for a cell in use",
    "overlay after a load: refused",
    "overlay after a load: cell of the first tape kept",
    "overlay after a load: cell of the first tape named again",
    "overlay after a load: cell of the first tape set to zero",
    "overlay after a load: cell that was cleared named",
    "overlay after a load: cell that was cleared left zero",
];

/// The names of `LOAD_EVENTS` about one call, in the order of `call_events`.
const LOAD: Range<usize> = 0..16;
const OVERLAY: Range<usize> = 16..32;

/// What a tape was about that was loaded into this store.
pub fn cleared_events(store: &Listed, tape: &[u8], answer: &Answer) -> Vec<&'static str> {
    call_events(&LOAD_EVENTS[LOAD], store, tape, answer)
}

/// What a tape was about that was laid over this store.
pub fn kept_events(store: &Listed, tape: &[u8], answer: &Answer) -> Vec<&'static str> {
    call_events(&LOAD_EVENTS[OVERLAY], store, tape, answer)
}

fn call_events(
    names: &[&'static str],
    store: &Listed,
    tape: &[u8],
    answer: &Answer,
) -> Vec<&'static str> {
    let Answer::Done { .. } = answer else {
        return Vec::new();
    };
    let blocks = blocks(tape);
    let named = Named::new(&blocks);
    let in_use = || store.cells.iter().filter(|&&(_, value)| value != 0);
    let unnamed = || in_use().filter(|&&(index, _)| !named.has(index));
    let (word, key) = (|value| value & WORD != 0, |value| value > WORD);
    let any = |test: &dyn Fn(u32) -> bool| unnamed().any(|&(_, value)| test(value));
    let holds = [
        any(&|value| word(value) && key(value)),
        any(&|value| word(value) && !key(value)),
        any(&|value| !word(value) && key(value)),
        unnamed().any(|&(index, _)| index + 1 == store.size),
        unnamed().any(|&(index, _)| named.has_between(index)),
        unnamed().count() == store.size,
        unnamed().count() > 65_536,
        zero_for(&blocks, store),
    ];
    let low = unnamed().take_while(|&&(index, _)| index < 8);
    let mut events: Vec<&str> = low.map(|&(index, _)| names[index]).collect();
    let others = holds.iter().zip(&names[8..]).filter(|(holds, _)| **holds);
    events.extend(others.map(|(_, &name)| name));
    events
}

/// Whether a block has zero for a cell that is not zero.
fn zero_for(blocks: &[Block], store: &Listed) -> bool {
    blocks.iter().any(|block| {
        let mut cells = block.cells.clone().zip(block.values());
        cells.any(|(index, value)| value == 0 && held(store, index) != 0)
    })
}

/// The cells that blocks name which do not overlap, in rising order.
struct Named(Vec<Range<usize>>);

impl Named {
    fn new(blocks: &[Block]) -> Self {
        let mut cells: Vec<Range<usize>> = blocks.iter().map(|block| block.cells.clone()).collect();
        cells.sort_by_key(|cells| cells.start);
        Named(cells)
    }

    /// How many of the stretches end before a cell or with it.
    fn before(&self, index: usize) -> usize {
        self.0.partition_point(|cells| cells.end <= index)
    }

    fn has(&self, index: usize) -> bool {
        let next = self.0.get(self.before(index));
        next.is_some_and(|cells| cells.start <= index)
    }

    /// Whether blocks lie on both sides of a cell that none names.
    fn has_between(&self, index: usize) -> bool {
        (1..self.0.len()).contains(&self.before(index))
    }
}

/// What a tape was about that was laid over what a load left.
pub fn laid_events(laid: &Laid, answer: &Answer) -> Vec<&'static str> {
    let Answer::Done { .. } = answer else {
        return vec!["overlay after a load: refused"];
    };
    let second = blocks(laid.second);
    let named = Named::new(&second);
    let first = Named::new(&blocks(laid.first));
    let left = |is_named: bool| {
        let mut cells = laid.left.cells.iter();
        cells.any(|&(index, _)| named.has(index) == is_named)
    };
    let cleared = |is_named: bool| {
        let mut cells = laid.store.cells.iter();
        cells.any(|&(index, _)| !first.has(index) && named.has(index) == is_named)
    };
    let zero = zero_for(&second, &laid.left);
    holding(&[
        (
            left(false),
            "overlay after a load: cell of the first tape kept",
        ),
        (
            left(true),
            "overlay after a load: cell of the first tape named again",
        ),
        (
            zero,
            "overlay after a load: cell of the first tape set to zero",
        ),
        (
            cleared(true),
            "overlay after a load: cell that was cleared named",
        ),
        (
            cleared(false),
            "overlay after a load: cell that was cleared left zero",
        ),
    ])
}
