//! The columns of the edges by documents 01 and 02, from the network file alone. Edges that meet at a plain joint, a link with one edge in and one
//! out, have one column; columns are numbered in the order of their lowest edges. Beside it the edges of each column in flow order.
use crate::NetworkFile;
use pywr_core::node::NodeType;
use std::iter::successors;

#[derive(Debug, Clone, PartialEq, Eq)]
pub struct Columns {
    pub of_edges: Vec<usize>,
    /// How many there are.
    pub count: usize,
    /// The links with a mass row.
    pub mass_rows: Vec<usize>,
}

impl Columns {
    pub fn of(file: &NetworkFile) -> Self {
        let chains = Chains::of(file);
        let lowest: Vec<usize> = (0..file.edges.len()).map(|edge| chains.lowest(edge)).collect();
        let columns: Vec<usize> = (0..lowest.len()).filter(|&edge| lowest[edge] == edge).collect();
        let of_edges = lowest.iter().map(|edge| columns.iter().position(|begun_by| begun_by == edge).unwrap());
        let has_mass_row = |&node: &usize| file.nodes[node].kind == NodeType::Link && chains.joints[node].is_none();
        Self {
            of_edges: of_edges.collect(),
            count: columns.len(),
            mass_rows: (0..file.nodes.len()).filter(has_mass_row).collect(),
        }
    }
}

/// The edges of a column in flow order.
#[derive(Debug, Clone, PartialEq, Eq)]
pub struct Path {
    pub edges: Vec<usize>,
    /// It is a closed ring, of plain joints only, and starts at its lowest edge.
    pub closed: bool,
}

impl Path {
    /// Whether its flow order is its edge order.
    pub fn is_in_edge_order(&self) -> bool {
        self.edges.is_sorted()
    }
}

/// One for each column.
pub fn paths(file: &NetworkFile) -> Vec<Path> {
    let chains = Chains::of(file);
    (0..file.edges.len()).filter(|&edge| chains.lowest(edge) == edge).map(|edge| chains.path(edge)).collect()
}

/// All edges in flow order, the columns among each other as the port puts them: paths by their first edges' numbers, then closed rings by theirs.
pub fn flow_order(paths: &[Path]) -> Vec<usize> {
    let mut in_turn: Vec<&Path> = paths.iter().collect();
    in_turn.sort_by_key(|path| (path.closed, path.edges[0]));
    in_turn.into_iter().flat_map(|path| path.edges.iter().copied()).collect()
}

/// The one edge into a link and the one out of it.
type Joint = [usize; 2];

fn plain_joint(file: &NetworkFile, node: usize) -> Option<Joint> {
    let edges = |end: fn(&(usize, usize)) -> usize| {
        (0..file.edges.len()).filter(|&edge| end(&file.edges[edge]) == node).collect::<Vec<usize>>()
    };
    match (file.nodes[node].kind, &edges(|edge| edge.1)[..], &edges(|edge| edge.0)[..]) {
        (NodeType::Link, &[inwards], &[outwards]) => Some([inwards, outwards]),
        _ => None,
    }
}

struct Chains<'a> {
    file: &'a NetworkFile,
    /// Of each node that is a plain joint.
    joints: Vec<Option<Joint>>,
}

impl<'a> Chains<'a> {
    fn of(file: &'a NetworkFile) -> Self {
        Self { file, joints: (0..file.nodes.len()).map(|node| plain_joint(file, node)).collect() }
    }

    fn below(&self, edge: usize) -> Option<usize> {
        self.joints[self.file.edges[edge].1].map(|[_, outwards]| outwards)
    }

    fn above(&self, edge: usize) -> Option<usize> {
        self.joints[self.file.edges[edge].0].map(|[inwards, _]| inwards)
    }

    /// The lowest edge of a chain: down and up from one of its edges as far as plain joints go, or once round a ring.
    fn lowest(&self, edge: usize) -> usize {
        let walk = |next: fn(&Self, usize) -> Option<usize>| {
            successors(next(self, edge), move |&at| next(self, at)).take_while(move |&at| at != edge)
        };
        walk(Self::below).chain(walk(Self::above)).fold(edge, usize::min)
    }

    /// From the lowest edge up to the first, or round to the lowest again; then down.
    fn path(&self, lowest: usize) -> Path {
        let top = successors(Some(lowest), |&at| self.above(at).filter(|&above| above != lowest)).last().unwrap();
        let closed = self.above(top).is_some();
        let first = if closed { lowest } else { top };
        let edges = successors(Some(first), |&at| self.below(at).filter(|&below| below != first));
        Path { edges: edges.collect(), closed }
    }
}
