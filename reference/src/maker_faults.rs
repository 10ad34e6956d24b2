//! Faults in the words of a row's maker: each of the three out of range at each kind, and an index at its limit.
use crate::makers::{KIND_TEXTS, KINDS};
use crate::random::Random;
use crate::store_shape::{Counts, MAKERS};
use pywr::Store;

/// What is written over the maker of a row, for a kind: the last index of its makers, which is no fault; the index behind it; shared by none;
/// a kind behind the last, with the rest as it may be for this one.
#[derive(Debug, Clone, Copy, PartialEq, Eq)]
pub enum Fault {
    LastIndex,
    IndexBehind,
    SharedByNone,
    KindBehind,
}

pub const FAULTS: [Fault; 4] = [Fault::LastIndex, Fault::IndexBehind, Fault::SharedByNone, Fault::KindBehind];

/// How often each fault was tried at each kind.
#[derive(Debug, Clone, Copy, Default)]
pub struct Tried([[u64; FAULTS.len()]; KINDS]);

impl Tried {
    pub fn count(&mut self, kind: usize, fault: Fault) {
        self.0[kind][fault as usize] += 1;
    }

    pub fn text(&self) -> String {
        let kinds = KIND_TEXTS.iter().zip(&self.0).map(|(kind, counts)| format!("; {kind}: {counts:?}"));
        format!(
            "faults in makers (last index, index behind it, shared by none, kind behind the last){}",
            kinds.collect::<String>()
        )
    }

    /// The kinds at which a fault was never tried.
    pub fn untried(&self) -> Option<String> {
        let kinds = KIND_TEXTS.iter().zip(&self.0).filter(|(_, counts)| counts.contains(&0));
        let list: Vec<String> = kinds.map(|(kind, counts)| format!("{kind} {counts:?}")).collect();
        (!list.is_empty()).then(|| format!("a fault in a maker of kind {}", list.join(", ")))
    }
}

/// Writes a fault over the maker of one of the store's rows, mostly the first or the last. Where the store has none of a kind's makers, every
/// index is behind the last.
pub fn write(r: &mut Random, store: &mut Store, tried: &mut Tried) {
    let counts = Counts::of(store);
    let kind = r.below(KINDS);
    let makers = counts.makers_of_kinds()[kind];
    let fault = if makers == 0 { Fault::IndexBehind } else { *r.pick(&FAULTS) };
    // A network with an edge has a row.
    let any = r.below(counts.rows());
    let row = *r.pick(&[0, counts.rows() - 1, any]);
    store.shape[MAKERS + 3 * row..][..3].copy_from_slice(&words(r, kind, makers, fault));
    tried.count(kind, fault);
}

/// The three words. Beyond the limit they are mostly one beyond it.
fn words(r: &mut Random, kind: usize, makers: usize, fault: Fault) -> [u16; 3] {
    let last = makers.saturating_sub(1) as u16; // of no makers it is not used
    let behind = |r: &mut Random, first: usize| if r.chance(70) { first as u16 } else { r.between(first, 65535) as u16 };
    let shared_by = *r.pick(&[1, 2, 65535]);
    match fault {
        Fault::LastIndex => [kind as u16, last, shared_by],
        Fault::IndexBehind => [kind as u16, behind(r, makers), shared_by],
        Fault::SharedByNone => [kind as u16, last, 0],
        Fault::KindBehind => [behind(r, KINDS), last, shared_by],
    }
}
