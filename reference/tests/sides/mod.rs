//! Both sides' answers to a plan, for the tests.
use pywr_reference::plans::{Plan, network_allows, programme_admits};
use pywr_reference::{NetworkFile, Reference, Sentinel};

/// Whether the network allows a plan under a step, and whether the programme admits it.
pub fn answers(network: &[u8], sentinel: Sentinel, step: &[u8], plan: &Plan) -> (bool, bool) {
    let mut reference = Reference::build(network, sentinel).unwrap_or_else(|r| panic!("refused: {r}"));
    reference.step(step).unwrap_or_else(|r| panic!("refused: {r}"));
    let admitted = programme_admits(reference.programme(), &reference.columns_of_edges(), sentinel, plan);
    (network_allows(&NetworkFile::read(network).unwrap(), sentinel, step, plan), admitted)
}
