//! Document 01's network file, edges as document 02's L1 has them: refusals 1 to 6, 19 and 20.
use crate::Refusal;
use crate::fields::{Fields, is_within};
use pywr_core::network::{AggregateParts, Network, NodeParts, VirtualStorageParts};
use pywr_core::node::NodeType;

pub const MARKS: [&[u8; 2]; 4] = [b"ND", b"ED", b"AG", b"VS"];
pub const MOST: [usize; 4] = [256, 512, 64, 32];
pub const KINDS: [NodeType; 4] = [NodeType::Input, NodeType::Output, NodeType::Link, NodeType::Storage];

#[derive(Debug, Clone, Default, PartialEq)]
pub struct NetworkFile {
    pub nodes: Vec<NodeParts>,
    pub edges: Vec<(usize, usize)>,
    pub aggregates: Vec<AggregateParts>,
    pub virtual_storages: Vec<VirtualStorageParts>,
}

impl NetworkFile {
    pub fn read(file: &[u8]) -> Result<Self, Refusal> {
        let mut network = Self::default();
        let mut offset = 0;
        let mut stage = 0;
        while offset < file.len() {
            let mut fields = Fields::new(file, offset, 1);
            let mark = fields.mark()?;
            let kind = MARKS.iter().position(|m| **m == mark).ok_or(fields.refusal(2))?;
            fields.require(stage <= kind, 2)?;
            stage = kind;
            match kind {
                0 => network.read_node(&mut fields)?,
                1 => network.read_edge(&mut fields)?,
                2 => network.read_aggregate(&mut fields)?,
                _ => network.read_virtual_storage(&mut fields)?,
            }
            offset = fields.next();
        }
        Ok(network)
    }

    pub fn network(&self) -> Network {
        Network::from_parts(&self.nodes, &self.edges, &self.aggregates, &self.virtual_storages)
    }

    fn read_node(&mut self, fields: &mut Fields) -> Result<(), Refusal> {
        fields.require(self.nodes.len() < MOST[0], 6)?;
        let kind = fields.u8()?;
        fields.require(kind <= 3, 3)?;
        let kind = KINDS[kind as usize];
        let constant = fields.u8()?;
        fields.require(constant <= 1, 3)?;
        fields.require(!(constant == 1 && kind == NodeType::Storage), 3)?;
        let mut bounds = [0.0; 2];
        for bound in &mut bounds {
            *bound = fields.f64()?;
            fields.require(if constant == 1 { !bound.is_nan() } else { bound.to_bits() == 0 }, 3)?;
        }
        self.nodes.push(NodeParts { kind, constant: (constant == 1).then_some((bounds[0], bounds[1])) });
        Ok(())
    }

    fn read_node_index(&self, fields: &mut Fields) -> Result<usize, Refusal> {
        let node = fields.u16()? as usize;
        fields.require(node < self.nodes.len(), 4)?;
        Ok(node)
    }

    fn read_edge(&mut self, fields: &mut Fields) -> Result<(), Refusal> {
        fields.require(self.edges.len() < MOST[1], 6)?;
        let from_field = fields.next();
        let from = self.read_node_index(fields)?;
        let to = self.read_node_index(fields)?;
        let into_input = self.nodes[to].kind == NodeType::Input;
        let out_of_output = self.nodes[from].kind == NodeType::Output;
        let repeats = self.edges.contains(&(from, to));
        for (slip, number) in [(into_input || out_of_output, 5), (from == to, 19), (repeats, 20)] {
            if slip {
                return Err(Refusal::new(number, from_field));
            }
        }
        self.edges.push((from, to));
        Ok(())
    }

    fn read_aggregate(&mut self, fields: &mut Fields) -> Result<(), Refusal> {
        fields.require(self.aggregates.len() < MOST[2], 6)?;
        let kind = fields.u8()?;
        fields.require(kind <= 1, 3)?;
        let count = fields.u8()?;
        fields.require((1..=16).contains(&count), 3)?;
        let min_active = fields.u32()?;
        fields.require(kind == 1 || min_active == 0, 3)?;
        let max_active = fields.u32()?;
        fields.require(kind == 1 || max_active == 0, 3)?;
        fields.require(min_active <= max_active, 3)?;
        let mut sets = Vec::new();
        for _ in 0..count {
            let size = fields.u8()?;
            fields.require((1..=16).contains(&size), 3)?;
            let mut set = Vec::new();
            for _ in 0..size {
                set.push(self.read_node_index(fields)?);
            }
            sets.push(set);
        }
        self.aggregates.push(AggregateParts { sets, exclusive: (kind == 1).then_some((min_active, max_active)) });
        Ok(())
    }

    fn read_virtual_storage(&mut self, fields: &mut Fields) -> Result<(), Refusal> {
        fields.require(self.virtual_storages.len() < MOST[3], 6)?;
        let kind = fields.u8()?;
        fields.require(kind <= 1, 3)?;
        let mut dates = [0; 4];
        for (date, most) in dates.iter_mut().zip([12, 31, 12, 31]) {
            *date = fields.u8()?;
            fields.require(if kind == 1 { (1..=most).contains(date) } else { *date == 0 }, 3)?;
        }
        let count = fields.u8()?;
        fields.require((1..=64).contains(&count), 3)?;
        let mut nodes = Vec::new();
        for _ in 0..count {
            let node = self.read_node_index(fields)?;
            let factor = fields.f64()?;
            fields.require(is_within(factor), 3)?;
            nodes.push((node, factor));
        }
        self.virtual_storages.push(VirtualStorageParts { period: (kind == 1).then_some(dates), nodes });
        Ok(())
    }
}
