//! Document 01's step file: refusals 12 and 13.
use crate::fields::{Fields, is_within};
use crate::{NetworkFile, Refusal};
use pywr_core::civil::DateTime;
use pywr_core::network::NodeParts;
use pywr_core::node::NodeType;
use pywr_core::state::{AggregateNumbers, NodeNumbers, State, VirtualStorageNumbers};
use pywr_core::timestep::Timestep;

pub const DAYS_OF_MONTH: [u8; 12] = [31, 29, 31, 30, 31, 30, 31, 31, 30, 31, 30, 31];

pub fn read(network: &NetworkFile, file: &[u8]) -> Result<(Timestep, State), Refusal> {
    let mut state = State::default();
    let mut fields = record(file, 0, b"ST")?;
    let timestep = read_timestep(&mut fields)?;
    for node in &network.nodes {
        fields = record(file, fields.next(), b"NB")?;
        state.nodes.push(read_node(&mut fields, node)?);
    }
    for _ in &network.aggregates {
        fields = record(file, fields.next(), b"GB")?;
        let [lower, upper] = [flow(&mut fields)?, flow(&mut fields)?];
        state.aggregates.push(AggregateNumbers { lower, upper });
    }
    for _ in &network.virtual_storages {
        fields = record(file, fields.next(), b"VB")?;
        let [min, max, volume] = [amount(&mut fields)?, amount(&mut fields)?, amount(&mut fields)?];
        state.virtual_storages.push(VirtualStorageNumbers { min, max, volume });
    }
    if fields.next() < file.len() {
        return Err(Refusal::new(12, fields.next()));
    }
    Ok((timestep, state))
}

fn record<'a>(file: &'a [u8], offset: usize, mark: &[u8; 2]) -> Result<Fields<'a>, Refusal> {
    let mut fields = Fields::new(file, offset, 12);
    let found = fields.mark()?;
    fields.require(found == *mark, 12)?;
    Ok(fields)
}

fn read_timestep(fields: &mut Fields) -> Result<Timestep, Refusal> {
    let month = fields.u8()?;
    fields.require((1..=12).contains(&month), 13)?;
    let day = fields.u8()?;
    fields.require((1..=DAYS_OF_MONTH[month as usize - 1]).contains(&day), 13)?;
    let days = fields.f64()?;
    fields.require((1.0 / 1024.0..=366.0).contains(&days), 13)?;
    Ok(Timestep::new(DateTime::new(month, day), days))
}

fn read_node(fields: &mut Fields, node: &NodeParts) -> Result<NodeNumbers, Refusal> {
    let bound = match (node.constant, node.kind) {
        (Some(_), _) => unread,
        (None, NodeType::Storage) => amount,
        (None, _) => flow,
    };
    let volume = if node.kind == NodeType::Storage { amount } else { unread };
    Ok(NodeNumbers { cost: amount(fields)?, min: bound(fields)?, max: bound(fields)?, volume: volume(fields)? })
}

/// A number that must be there and is not looked at.
fn unread(fields: &mut Fields) -> Result<f64, Refusal> {
    fields.f64()
}

/// A cost or a volume.
fn amount(fields: &mut Fields) -> Result<f64, Refusal> {
    let x = fields.f64()?;
    fields.require(is_within(x), 13)?;
    Ok(x)
}

/// A flow bound.
fn flow(fields: &mut Fields) -> Result<f64, Refusal> {
    let x = fields.f64()?;
    fields.require(!x.is_nan(), 13)?;
    Ok(x)
}
