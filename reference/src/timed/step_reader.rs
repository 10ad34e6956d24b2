//! Step files into one state that is kept from step to step. A good file's length is known from the network, and with it every offset.
use super::{AMOUNT, FLOW, Limit, UNREAD, f64_at, is_mark, within};
use crate::{NetworkFile, Refusal, step_file};
use pywr_core::civil::DateTime;
use pywr_core::network::NodeParts;
use pywr_core::node::NodeType;
use pywr_core::state::{AggregateNumbers, NodeNumbers, State, VirtualStorageNumbers};
use pywr_core::timestep::Timestep;

pub struct StepReader<'a> {
    network: &'a NetworkFile,
    /// Of each node's min and max, and of its volume.
    limits: Vec<[Limit; 2]>,
    state: State,
}

impl<'a> StepReader<'a> {
    pub fn new(network: &'a NetworkFile) -> Self {
        let state = State {
            nodes: vec![NodeNumbers { cost: 0.0, min: 0.0, max: 0.0, volume: 0.0 }; network.nodes.len()],
            aggregates: vec![AggregateNumbers { lower: 0.0, upper: 0.0 }; network.aggregates.len()],
            virtual_storages: vec![VirtualStorageNumbers { min: 0.0, max: 0.0, volume: 0.0 }; network.virtual_storages.len()],
        };
        Self { network, limits: network.nodes.iter().map(limits).collect(), state }
    }

    /// The file's date and numbers, until the next file is read.
    pub fn read(&mut self, file: &[u8]) -> Result<(Timestep, &State), Refusal> {
        match self.read_good(file) {
            Some(timestep) => Ok((timestep, &self.state)),
            None => Err(self.refusal(file)),
        }
    }

    #[cold]
    fn refusal(&self, file: &[u8]) -> Refusal {
        step_file::read(self.network, file).expect_err("this file is refused")
    }

    fn read_good(&mut self, file: &[u8]) -> Option<Timestep> {
        let (first, rest) = file.split_first_chunk::<12>()?;
        let (nodes, rest) = rest.split_at_checked(34 * self.state.nodes.len())?;
        let (aggregates, rest) = rest.split_at_checked(18 * self.state.aggregates.len())?;
        let (virtual_storages, []) = rest.as_chunks::<26>() else { return None };
        if virtual_storages.len() != self.state.virtual_storages.len() {
            return None;
        }
        let timestep = timestep(first)?;
        let mut good = true;
        for ((record, numbers), limits) in nodes.as_chunks::<34>().0.iter().zip(&mut self.state.nodes).zip(&self.limits) {
            let [cost, min, max, volume] = [2, 10, 18, 26].map(|at| f64_at(record, at));
            good &= is_mark(record, b"NB") & within(cost, AMOUNT);
            good &= within(min, limits[0]) & within(max, limits[0]) & within(volume, limits[1]);
            *numbers = NodeNumbers { cost, min, max, volume };
        }
        for (record, numbers) in aggregates.as_chunks::<18>().0.iter().zip(&mut self.state.aggregates) {
            let [lower, upper] = [2, 10].map(|at| f64_at(record, at));
            good &= is_mark(record, b"GB") & within(lower, FLOW) & within(upper, FLOW);
            *numbers = AggregateNumbers { lower, upper };
        }
        for (record, numbers) in virtual_storages.iter().zip(&mut self.state.virtual_storages) {
            let [min, max, volume] = [2, 10, 18].map(|at| f64_at(record, at));
            good &= is_mark(record, b"VB") & within(min, AMOUNT) & within(max, AMOUNT) & within(volume, AMOUNT);
            *numbers = VirtualStorageNumbers { min, max, volume };
        }
        good.then_some(timestep)
    }
}

fn limits(node: &NodeParts) -> [Limit; 2] {
    match (node.constant, node.kind) {
        (None, NodeType::Storage) => [AMOUNT, AMOUNT],
        (None, _) => [FLOW, UNREAD],
        (Some(_), _) => [UNREAD, UNREAD],
    }
}

fn timestep(record: &[u8; 12]) -> Option<Timestep> {
    let [month, day, days] = [record[2], record[3], *step_file::DAYS_OF_MONTH.get((record[2] as usize).wrapping_sub(1))?];
    let length = f64_at(record, 4);
    let good = is_mark(record, b"ST") & (day >= 1) & (day <= days) & (length >= 1.0 / 1024.0) & (length <= 366.0);
    good.then(|| Timestep::new(DateTime::new(month, day), length))
}
