//! Who made each row of the Rust's programme: document 02's L5. The Rust keeps no makers, so a row is known by what it holds.
//!
//! Whoever asks for a varying row has that row gathered anew from the network file and the Rust's edge columns, and is counted at the first
//! varying row with equal elements. The fixed rows are walked beside those who make them, in document 01's order.
use crate::NetworkFile;
use crate::programme::{Programme, Row};
use pywr_core::node::NodeType;
use std::collections::BTreeMap;
use std::fmt;

/// The kinds of makers: a link's mass balance, a node, an aggregate, a virtual storage, an aggregate's exclusivity.
pub const MASS: u16 = 0;
pub const NODE: u16 = 1;
pub const AGGREGATE: u16 = 2;
pub const VIRTUAL_STORAGE: u16 = 3;
pub const EXCLUSIVITY: u16 = 4;
pub const KINDS: usize = 5;

/// A kind in the words of the program `namer`; its index follows.
pub const KIND_TEXTS: [&str; KINDS] =
    ["mass balance of node", "node", "aggregate", "virtual storage", "exclusivity of aggregate"];

/// The first maker of a row, and how many makers share it. A store may hold any words here.
#[derive(Debug, Clone, Copy, PartialEq, Eq)]
pub struct Maker {
    pub kind: u16,
    pub index: u16,
    pub shared_by: u16,
}

impl Maker {
    /// The only maker of its row.
    pub fn alone(kind: u16, index: usize) -> Self {
        Self { kind, index: u16::try_from(index).expect("an index in a network file"), shared_by: 1 }
    }
}

/// As the program `namer` prints it: `virtual storage 0, shared by 2`.
impl fmt::Display for Maker {
    fn fmt(&self, f: &mut fmt::Formatter<'_>) -> fmt::Result {
        let kind = KIND_TEXTS.get(self.kind as usize).unwrap_or(&"unknown kind, index");
        write!(f, "{kind} {}", self.index)?;
        if self.shared_by == 1 { Ok(()) } else { write!(f, ", shared by {}", self.shared_by) }
    }
}

type Elements = Vec<(usize, f64)>;

/// A maker that asks for a row: its kind and index, and what the row holds.
type Asker = (u16, usize, Elements);

/// The makers of a fresh programme's rows, in the order of the rows. An error says where the rows are not those that the file asks for.
pub fn of(file: &NetworkFile, columns_of_edges: &[usize], fresh: &Programme) -> Result<Vec<Maker>, String> {
    let network = Gatherer::new(file, columns_of_edges, fresh.edge_columns());
    let (varying, fixed) = fresh.rows.split_at(fresh.varying_rows());
    let mut makers = makers_of_varying(network.varying_askers(), varying)?;
    makers.extend(makers_of_fixed(network.fixed_askers(), fixed)?);
    Ok(makers)
}

/// Whether two nodes have the same row, so that in one set they share both of theirs.
pub fn have_equal_rows(file: &NetworkFile, columns_of_edges: &[usize], one: usize, other: usize) -> bool {
    let edge_columns = columns_of_edges.iter().max().map_or(0, |last| last + 1);
    let network = Gatherer::new(file, columns_of_edges, edge_columns);
    network.node_row(one, 1.0) == network.node_row(other, 1.0)
}

/// The first that finds a row is its maker; each that finds it is counted.
fn makers_of_varying(askers: Vec<Asker>, rows: &[Row]) -> Result<Vec<Maker>, String> {
    let mut makers: Vec<Option<Maker>> = vec![None; rows.len()];
    for (kind, index, elements) in askers {
        let found = rows.iter().position(|row| row.elements == elements);
        let at = found.ok_or_else(|| format!("no varying row has the elements of {}", Maker::alone(kind, index)))?;
        match &mut makers[at] {
            Some(maker) => maker.shared_by += 1,
            none => *none = Some(Maker::alone(kind, index)),
        }
    }
    makers.into_iter().enumerate().map(|(row, maker)| maker.ok_or(format!("nobody asks for row {row}"))).collect()
}

/// Fixed rows never join: they stand one for one beside those who make them.
fn makers_of_fixed(askers: Vec<Asker>, rows: &[Row]) -> Result<Vec<Maker>, String> {
    if askers.len() != rows.len() {
        return Err(format!("{} fixed rows, {} are asked for", rows.len(), askers.len()));
    }
    let pairs = askers.into_iter().zip(rows).enumerate();
    let maker = |(k, ((kind, index, elements), row)): (usize, (Asker, &Row))| match row.elements == elements {
        true => Ok(Maker::alone(kind, index)),
        false => Err(format!("fixed row {k} has not the elements of {}", Maker::alone(kind, index))),
    };
    pairs.map(maker).collect()
}

/// A row that is being gathered: elements rise by column; repeats add, from 0.0.
#[derive(Default, PartialEq)]
struct Gathered(BTreeMap<usize, f64>);

impl Gathered {
    fn add(&mut self, column: usize, value: f64) {
        *self.0.entry(column).or_insert(0.0) += value;
    }

    fn with(mut self, column: usize, value: f64) -> Self {
        self.add(column, value);
        self
    }

    fn elements(self) -> Elements {
        self.0.into_iter().collect()
    }
}

/// A network file's records, with the column of each edge and of each distinct exclusive set.
struct Gatherer<'a> {
    file: &'a NetworkFile,
    /// The columns of the edges into and out of each node, in edge order.
    incoming: Vec<Vec<usize>>,
    outgoing: Vec<Vec<usize>>,
    /// The distinct exclusive sets in order of first appearance: set k has column `edge_columns + k`.
    sets: Vec<&'a [usize]>,
    edge_columns: usize,
}

impl<'a> Gatherer<'a> {
    fn new(file: &'a NetworkFile, columns_of_edges: &[usize], edge_columns: usize) -> Self {
        let none = vec![Vec::new(); file.nodes.len()];
        let (mut incoming, mut outgoing) = (none.clone(), none);
        for (&(from, to), &column) in file.edges.iter().zip(columns_of_edges) {
            outgoing[from].push(column);
            incoming[to].push(column);
        }
        let mut sets: Vec<&[usize]> = Vec::new();
        for set in file.aggregates.iter().filter(|a| a.exclusive.is_some()).flat_map(|a| &a.sets) {
            if !sets.contains(&&set[..]) {
                sets.push(set);
            }
        }
        Self { file, incoming, outgoing, sets, edge_columns }
    }

    /// "Node row: input and link use outgoing edges, output incoming, storage + incoming - outgoing".
    fn add_node(&self, node: usize, factor: f64, row: &mut Gathered) {
        let kind = self.file.nodes[node].kind;
        if matches!(kind, NodeType::Output | NodeType::Storage) {
            self.incoming[node].iter().for_each(|&column| row.add(column, factor));
        }
        match kind {
            NodeType::Input | NodeType::Link => self.outgoing[node].iter().for_each(|&column| row.add(column, factor)),
            NodeType::Storage => self.outgoing[node].iter().for_each(|&column| row.add(column, -factor)),
            NodeType::Output => {}
        }
    }

    fn node_row(&self, node: usize, factor: f64) -> Gathered {
        let mut row = Gathered::default();
        self.add_node(node, factor, &mut row);
        row
    }

    /// The columns of the sets that list a node, one for each listing.
    fn listings(&self, node: usize) -> Vec<usize> {
        let columns = (self.edge_columns..).zip(&self.sets);
        columns.flat_map(|(column, set)| set.iter().filter(|&&listed| listed == node).map(move |_| column)).collect()
    }

    /// Nodes, then aggregates, then virtual storages.
    fn varying_askers(&self) -> Vec<Asker> {
        let mut askers = Vec::new();
        for (n, _) in self.file.nodes.iter().enumerate().filter(|(_, node)| node.constant.is_none()) {
            askers.extend(self.varying_node_rows(n).into_iter().map(|row| (NODE, n, row.elements())));
        }
        for (a, aggregate) in self.file.aggregates.iter().enumerate() {
            let mut row = Gathered::default();
            aggregate.sets.iter().flatten().for_each(|&node| self.add_node(node, 1.0, &mut row));
            askers.push((AGGREGATE, a, row.elements()));
        }
        for (v, storage) in self.file.virtual_storages.iter().enumerate() {
            let mut row = Gathered::default();
            storage.nodes.iter().for_each(|&(node, factor)| self.add_node(node, -factor, &mut row));
            askers.push((VIRTUAL_STORAGE, v, row.elements()));
        }
        askers
    }

    /// "Exclusive ones start with coefficients 1 (upper row) and -1 (lower row)".
    fn varying_node_rows(&self, node: usize) -> Vec<Gathered> {
        let listings = self.listings(node);
        if listings.is_empty() {
            return vec![self.node_row(node, 1.0)];
        }
        let rows = |column| [self.node_row(node, -1.0).with(column, 1.0), self.node_row(node, 1.0).with(column, -1.0)];
        listings.into_iter().flat_map(rows).collect()
    }

    /// Mass rows, then constant nodes, then exclusivity rows.
    fn fixed_askers(&self) -> Vec<Asker> {
        let mut askers = Vec::new();
        for (n, _) in self.file.nodes.iter().enumerate().filter(|(_, node)| node.kind == NodeType::Link) {
            askers.extend(self.mass_row(n).map(|row| (MASS, n, row.elements())));
        }
        for (n, node) in self.file.nodes.iter().enumerate() {
            let rows = node.constant.map_or(Vec::new(), |(min, max)| self.constant_node_rows(n, min, max));
            askers.extend(rows.into_iter().map(|row| (NODE, n, row.elements())));
        }
        for (a, aggregate) in self.file.aggregates.iter().enumerate().filter(|(_, a)| a.exclusive.is_some()) {
            askers.push((EXCLUSIVITY, a, self.exclusivity_row(&aggregate.sets).elements()));
        }
        askers
    }

    /// "dropped exactly if it has one distinct column".
    fn mass_row(&self, link: usize) -> Option<Gathered> {
        let mut row = Gathered::default();
        self.incoming[link].iter().for_each(|&column| row.add(column, 1.0));
        self.outgoing[link].iter().for_each(|&column| row.add(column, -1.0));
        (row.0.len() != 1).then_some(row)
    }

    /// "upper coefficient min(max, 1e6)", "lower coefficient -max(min, 1e-6)", "min 0 omits the row".
    fn constant_node_rows(&self, node: usize, min: f64, max: f64) -> Vec<Gathered> {
        let listings = self.listings(node);
        if listings.is_empty() {
            return vec![self.node_row(node, 1.0)];
        }
        let rows = |column| {
            let upper = self.node_row(node, -1.0).with(column, max.min(1e6));
            let lower = (min != 0.0).then(|| self.node_row(node, 1.0).with(column, -min.max(1e-6)));
            [Some(upper), lower].into_iter().flatten()
        };
        listings.into_iter().flat_map(rows).collect()
    }

    /// "1 per listed set on its column".
    fn exclusivity_row(&self, sets: &[Vec<usize>]) -> Gathered {
        let mut row = Gathered::default();
        for set in sets {
            let k = self.sets.iter().position(|distinct| *distinct == &set[..]).expect("a set of an exclusive aggregate");
            row.add(self.edge_columns + k, 1.0);
        }
        row
    }
}
