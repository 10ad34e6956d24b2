//! Stand-in for the metrics: a metric is a constant, or names a number of the step file.
use crate::network::{AggregatedNodeIndex, Network, NodeIndex, VirtualStorageIndex};
use crate::state::{ConstParameterValues, SimpleParameterValues, State};
use thiserror::Error;

#[derive(Debug, Clone, PartialEq)]
pub enum MetricF64 {
    Constant(f64),
    NodeCost(NodeIndex),
    NodeMin(NodeIndex),
    NodeMax(NodeIndex),
    AggregateLower(AggregatedNodeIndex),
    AggregateUpper(AggregatedNodeIndex),
}

#[derive(Debug, Clone, PartialEq)]
pub enum SimpleMetricF64 {
    NodeMin(NodeIndex),
    NodeMax(NodeIndex),
    VirtualStorageMin(VirtualStorageIndex),
    VirtualStorageMax(VirtualStorageIndex),
}

#[derive(Debug, Error)]
pub enum MetricF64Error {
    NotFound,
}

#[derive(Debug, Error)]
pub enum SimpleMetricF64Error {
    NotFound,
}

#[derive(Debug, Error)]
pub enum ConstantMetricF64Error {}

impl MetricF64 {
    pub fn get_value(&self, _network: &Network, state: &State) -> Result<f64, MetricF64Error> {
        let value = match self {
            Self::Constant(value) => Some(*value),
            Self::NodeCost(i) => state.nodes.get(**i).map(|n| n.cost),
            Self::NodeMin(i) => state.nodes.get(**i).map(|n| n.min),
            Self::NodeMax(i) => state.nodes.get(**i).map(|n| n.max),
            Self::AggregateLower(i) => state.aggregates.get(**i).map(|a| a.lower),
            Self::AggregateUpper(i) => state.aggregates.get(**i).map(|a| a.upper),
        };
        value.ok_or(MetricF64Error::NotFound)
    }

    pub fn try_get_constant_value(&self, _values: &ConstParameterValues) -> Result<Option<f64>, ConstantMetricF64Error> {
        match self {
            Self::Constant(value) => Ok(Some(*value)),
            _ => Ok(None),
        }
    }
}

impl SimpleMetricF64 {
    pub fn get_value(&self, values: &SimpleParameterValues) -> Result<f64, SimpleMetricF64Error> {
        let state = values.0;
        let value = match self {
            Self::NodeMin(i) => state.nodes.get(**i).map(|n| n.min),
            Self::NodeMax(i) => state.nodes.get(**i).map(|n| n.max),
            Self::VirtualStorageMin(i) => state.virtual_storages.get(**i).map(|v| v.min),
            Self::VirtualStorageMax(i) => state.virtual_storages.get(**i).map(|v| v.max),
        };
        value.ok_or(SimpleMetricF64Error::NotFound)
    }
}
