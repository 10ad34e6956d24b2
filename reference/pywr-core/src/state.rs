//! Stand-in for the state: the step file's numbers.
use crate::network::{NodeIndex, VirtualStorageIndex};
use thiserror::Error;

/// What `NB` holds.
#[derive(Debug, Clone, Copy)]
pub struct NodeNumbers {
    pub cost: f64,
    pub min: f64,
    pub max: f64,
    pub volume: f64,
}

/// What `GB` holds.
#[derive(Debug, Clone, Copy)]
pub struct AggregateNumbers {
    pub lower: f64,
    pub upper: f64,
}

/// What `VB` holds.
#[derive(Debug, Clone, Copy)]
pub struct VirtualStorageNumbers {
    pub min: f64,
    pub max: f64,
    pub volume: f64,
}

#[derive(Debug, Default)]
pub struct State {
    pub nodes: Vec<NodeNumbers>,
    pub aggregates: Vec<AggregateNumbers>,
    pub virtual_storages: Vec<VirtualStorageNumbers>,
}

pub struct NetworkState<'a>(&'a State);
pub struct SimpleParameterValues<'a>(pub(crate) &'a State);
/// A constant is in its metric.
pub struct ConstParameterValues;

#[derive(Debug, Error)]
pub enum NetworkStateError {
    NotFound,
}

#[derive(Debug, Error)]
pub enum StateError {}

impl State {
    pub fn get_network_state(&self) -> NetworkState<'_> {
        NetworkState(self)
    }

    pub fn get_simple_parameter_values(&self) -> SimpleParameterValues<'_> {
        SimpleParameterValues(self)
    }
}

impl NetworkState<'_> {
    pub fn get_node_volume(&self, index: &NodeIndex) -> Result<f64, NetworkStateError> {
        self.0.nodes.get(**index).map(|n| n.volume).ok_or(NetworkStateError::NotFound)
    }

    pub fn get_virtual_storage_volume(&self, index: &VirtualStorageIndex) -> Result<f64, NetworkStateError> {
        self.0.virtual_storages.get(**index).map(|v| v.volume).ok_or(NetworkStateError::NotFound)
    }
}
