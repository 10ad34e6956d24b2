//! Faults in the table of the edges in flow order: an entry at the edge count, which is its limit, and beyond it.
use crate::network_file::MOST;
use crate::random::Random;
use crate::store_shape::{Counts, FLOW_ORDER};
use pywr::Store;

/// What is written over an entry: the last edge, which is no fault; the number behind it, or one beyond; over the entry behind the last, where there is
/// room for one, a number that no edge has, which is no fault either.
#[derive(Debug, Clone, Copy, PartialEq, Eq)]
pub enum Fault {
    LastEdge,
    NumberBehind,
    EntryBehind,
}

pub const FAULTS: [Fault; 3] = [Fault::LastEdge, Fault::NumberBehind, Fault::EntryBehind];

/// How often each fault was tried.
#[derive(Debug, Clone, Copy, Default)]
pub struct Tried([u64; FAULTS.len()]);

impl Tried {
    pub fn text(&self) -> String {
        format!("faults in the edges in flow order (last edge, number behind it, entry behind the last): {:?}", self.0)
    }

    pub fn untried(&self) -> Option<String> {
        self.0.contains(&0).then(|| format!("a fault in the edges in flow order {:?}", self.0))
    }
}

/// Writes a fault over one of the store's entries, mostly the first or the last.
pub fn write(r: &mut Random, store: &mut Store, tried: &mut Tried) {
    let edges = Counts::of(store).edges;
    let fault = match *r.pick(&FAULTS) {
        Fault::EntryBehind if edges == MOST[1] => Fault::NumberBehind,
        fault => fault,
    };
    // A network that is accepted has an edge.
    let any = r.below(edges);
    let at = *r.pick(&[0, edges - 1, any]);
    let behind = if r.chance(70) { edges } else { r.between(edges, 65535) } as u16;
    match fault {
        Fault::LastEdge => store.shape[FLOW_ORDER + at] = (edges - 1) as u16,
        Fault::NumberBehind => store.shape[FLOW_ORDER + at] = behind,
        Fault::EntryBehind => store.shape[FLOW_ORDER + edges] = behind,
    }
    tried.0[fault as usize] += 1;
}
