//! Refusal 17 of document 01, with the makers of document 02's L5 and the flow order of L10, asked of a store laid out as docs/FORMATS.md says.
use crate::makers;
use pywr::Store;

pub const COUNTS: usize = 11;
pub const NODES: usize = 11;
pub const EDGES: usize = 523;
pub const NODE_ROWS: usize = 2059;
pub const AGGREGATES: usize = 19467;
pub const VIRTUAL_STORAGES: usize = 19531;
pub const MAKERS: usize = 19723;
pub const FLOW_ORDER: usize = 22795;

/// How many tables `shape` has, the counts among them.
pub const TABLES: usize = 8;

/// What stands at the start of `shape`.
#[derive(Debug, Clone, Copy)]
pub struct Counts {
    pub sentinel: usize,
    pub nodes: usize,
    pub edges: usize,
    pub edge_columns: usize,
    pub sets: usize,
    pub varying: usize,
    pub fixed: usize,
    pub elements: usize,
    pub node_rows: usize,
    pub aggregates: usize,
    pub virtual_storages: usize,
}

impl Counts {
    pub fn of(store: &Store) -> Self {
        let [sentinel, nodes, edges, edge_columns, sets, varying, fixed, elements, node_rows, aggregates, virtual_storages] =
            std::array::from_fn(|i| store.shape[i] as usize);
        Self { sentinel, nodes, edges, edge_columns, sets, varying, fixed, elements, node_rows, aggregates, virtual_storages }
    }

    pub fn columns(&self) -> usize {
        self.edge_columns + self.sets
    }

    pub fn rows(&self) -> usize {
        self.varying + self.fixed
    }

    /// The tables of `shape`: where each starts, and how many words it has.
    pub fn tables(&self) -> [(usize, usize); TABLES] {
        [
            (0, COUNTS),
            (NODES, 2 * self.nodes),
            (EDGES, 3 * self.edges),
            (NODE_ROWS, 4 * self.node_rows),
            (AGGREGATES, self.aggregates),
            (VIRTUAL_STORAGES, 6 * self.virtual_storages),
            (MAKERS, 3 * self.rows()),
            (FLOW_ORDER, self.edges),
        ]
    }

    /// How many there are that can make rows of each kind.
    pub fn makers_of_kinds(&self) -> [usize; makers::KINDS] {
        [self.nodes, self.nodes, self.aggregates, self.virtual_storages, self.aggregates]
    }

    fn over_a_ceiling(&self) -> bool {
        self.nodes > 256
            || self.edges > 512
            || self.edge_columns > 512
            || self.sets > 128
            || self.rows() > 1024
            || self.elements > 4096
            || self.node_rows > 4352
            || self.aggregates > 64
            || self.virtual_storages > 32
    }
}

pub fn misshapen(store: &Store) -> bool {
    let counts = Counts::of(store);
    counts.over_a_ceiling() || counts.sentinel > 1 || starts_wrong(store, &counts) || references_wrong(store, &counts)
}

fn starts_wrong(store: &Store, counts: &Counts) -> bool {
    let starts = &store.row_starts[..=counts.rows()];
    starts[0] != 0 || starts.windows(2).any(|w| w[0] > w[1]) || starts[counts.rows()] as usize != counts.elements
}

fn columns_of_row(store: &Store, row: usize) -> &[u16] {
    &store.columns[store.row_starts[row] as usize..store.row_starts[row + 1] as usize]
}

fn references_wrong(store: &Store, counts: &Counts) -> bool {
    let entries = |from: usize, words: usize, count: usize| store.shape[from..from + words * count].chunks(words);
    let under = |word: u16, count: usize| (word as usize) < count;
    let columns_wrong = |row| {
        let columns = columns_of_row(store, row);
        columns.iter().any(|&c| !under(c, counts.columns())) || columns.windows(2).any(|w| w[0] >= w[1])
    };
    let node_row_wrong = |e: &[u16]| {
        let absent = || !columns_of_row(store, e[1] as usize).contains(&(counts.edge_columns as u16 + e[3]));
        !under(e[0], counts.nodes)
            || !under(e[1], counts.varying)
            || e[2] > 2
            || (e[2] > 0 && (!under(e[3], counts.sets) || absent()))
    };
    let maker_wrong =
        |e: &[u16]| counts.makers_of_kinds().get(e[0] as usize).is_none_or(|&count| !under(e[1], count)) || e[2] < 1;
    (0..counts.rows()).any(columns_wrong)
        || entries(NODES, 2, counts.nodes).any(|e| e[0] > 3 || e[1] > 1)
        || entries(EDGES, 3, counts.edges)
            .any(|e| !under(e[0], counts.nodes) || !under(e[1], counts.nodes) || !under(e[2], counts.edge_columns))
        || entries(NODE_ROWS, 4, counts.node_rows).any(node_row_wrong)
        || entries(AGGREGATES, 1, counts.aggregates).any(|e| !under(e[0], counts.varying))
        || entries(VIRTUAL_STORAGES, 6, counts.virtual_storages).any(|e| !under(e[0], counts.varying) || e[1] > 1)
        || entries(MAKERS, 3, counts.rows()).any(maker_wrong)
        || entries(FLOW_ORDER, 1, counts.edges).any(|e| !under(e[0], counts.edges))
}
