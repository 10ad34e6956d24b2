//! Networks and lists of steps from a seed: case `index` of `seed` is always the same.
mod broken;
mod ceilings;
mod chains;
mod damage;
pub mod encode;
mod exclusive;
pub mod fitted;
mod numbers;
pub mod plans;
pub mod sized;
mod small;
mod steps;

use crate::random::Random;
use crate::{NetworkFile, Sentinel};
use encode::network_records;

#[derive(Debug, Clone, PartialEq)]
pub struct Case {
    pub kind: &'static str,
    pub network: Vec<u8>,
    pub sentinel: Sentinel,
    pub steps: Vec<Vec<u8>>,
}

/// A kind of network, how many cases of a hundred are of it, and its file.
type Kind = (&'static str, usize, fn(&mut Random) -> Vec<u8>);

const KINDS: [Kind; 9] = [
    ("small", 25, |r| file(small::network(r))),
    ("chains", 15, |r| file(chains::network(r))),
    ("exclusive", 15, |r| file(exclusive::network(r))),
    ("ceiling", 6, |r| file(ceilings::network(r))),
    ("full", 1, ceilings::full),
    ("broken", 13, |r| file(broken::network(r))),
    ("damaged", 13, |r| {
        let records = network_records(&base(r));
        damage::damaged(r, records)
    }),
    ("cut", 10, |r| {
        let records = network_records(&base(r));
        damage::cut(r, records)
    }),
    ("bytes", 2, damage::bytes),
];

/// The kind of a case, without the case.
pub fn kind(seed: u64, index: u64) -> &'static str {
    draw(&mut Random::of_case(seed, index)).0
}

pub fn case(seed: u64, index: u64) -> Case {
    let r = &mut Random::of_case(seed, index);
    let (kind, _, make) = draw(r);
    let network = make(r);
    let sentinel = if r.chance(50) { Sentinel::Infinity } else { Sentinel::LargestFinite };
    let steps = match NetworkFile::read(&network) {
        Ok(file) if file.check().is_ok() => steps::steps(r, &file),
        _ => Vec::new(),
    };
    Case { kind, network, sentinel, steps }
}

fn draw(r: &mut Random) -> Kind {
    let mut at = r.below(KINDS.iter().map(|k| k.1).sum());
    for kind in KINDS {
        if at < kind.1 {
            return kind;
        }
        at -= kind.1;
    }
    unreachable!()
}

fn file(network: NetworkFile) -> Vec<u8> {
    network_records(&network).concat()
}

/// What is damaged: mostly small networks, so that each byte is hit.
fn base(r: &mut Random) -> NetworkFile {
    match r.below(10) {
        0 => chains::network(r),
        1 => exclusive::network(r),
        _ => small::network(r),
    }
}
