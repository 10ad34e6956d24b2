//! virtual_storage.rs: the periods and volumes of the source, and how a virtual storage is made.
use crate::NodeIndex;
use crate::civil::Date;
use crate::metric::{MetricF64, MetricF64Error, SimpleMetricF64, SimpleMetricF64Error};
use crate::network::{Network, VirtualStorageIndex};
use crate::node::{NodeMeta, StorageConstraints, StorageInitialVolume, UnresolvedNode};
use crate::state::{NetworkStateError, State, StateError};
use crate::timestep::Timestep;
use std::num::NonZeroUsize;
use thiserror::Error;

include!(concat!(env!("OUT_DIR"), "/virtual_storage.rs"));

impl VirtualStorageNode {
    /// Stands for `VirtualStorageNodeBuilder::build`. Resets are no part of a step.
    pub fn new(
        index: VirtualStorageIndex,
        name: &str,
        nodes: Vec<NodeIndex>,
        factors: Vec<f64>,
        period: Option<[u8; 4]>,
    ) -> Self {
        Self {
            meta: NodeMeta::from_unresolved_name(UnresolvedNode::new(name, None), index),
            nodes,
            factors,
            initial_volume: StorageInitialVolume::Absolute(0.0),
            storage_constraints: StorageConstraints::new(
                Some(SimpleMetricF64::VirtualStorageMin(index)),
                Some(SimpleMetricF64::VirtualStorageMax(index)),
            ),
            reset: VirtualStorageReset::Never,
            reset_volume: VirtualStorageResetVolume::Initial,
            rolling_window: None,
            active_period: match period {
                None => VirtualStorageActivePeriod::Always,
                Some([start_month, start_day, end_month, end_day]) => VirtualStorageActivePeriod::Period {
                    start_day: start_day as i8,
                    start_month: start_month as i8,
                    end_day: end_day as i8,
                    end_month: end_month as i8,
                },
            },
            cost: None,
        }
    }
}
