//! The alterations of builder.rs and col_edge_map.rs, each by lines of it that must stand there exactly once.
pub struct Alteration {
    /// What the altered text does, for the message where a line is not found.
    pub name: &'static str,
    /// A line, without its indentation, and the text that takes its place.
    pub lines: &'static [(&'static str, &'static str)],
}

/// Document 02's L2. Where a ring closes, a column meets itself.
pub const COL_EDGE_MAP: [Alteration; 1] = [Alteration {
    name: "columns that meet unite under the lower number",
    lines: &[(
        "// Both are already present; this should not happen?",
        "let cols = [self.col_for_edge(&idx1), self.col_for_edge(&idx2)];
         let (low, high) = (cols[0].min(cols[1]), cols[0].max(cols[1]));
         if low < high {
             let edges = self.col_to_edges.remove(high.to_usize().unwrap());
             self.col_to_edges[low.to_usize().unwrap()].extend(edges);
             for col in self.edge_to_col.values_mut().filter(|col| **col >= high) {
                 *col = if *col == high { low } else { *col - I::one() };
             }
         }",
    )],
}];

pub const BUILDER: [Alteration; 5] = [
    // Document 02's L2.
    Alteration {
        name: "the altered column map",
        lines: &[(
            "use crate::solvers::col_edge_map::{ColumnEdgeMap, ColumnEdgeMapBuilder};",
            "use crate::solvers::col_edge_map_altered::{ColumnEdgeMap, ColumnEdgeMapBuilder};",
        )],
    },
    // A HashSet is walked in no fixed order.
    Alteration {
        name: "distinct exclusive sets in order of first appearance",
        lines: &[(
            "let mut node_sets_in_a_mutual_exclusivity = HashSet::new();",
            "let mut node_sets_in_a_mutual_exclusivity = crate::first_appearance::SetInOrder::new();",
        )],
    },
    // Document 02's L10.
    Alteration {
        name: "costs summed in flow order",
        lines: &[("for edge in network.edges() {", "for edge in network.edges_in_flow_order() {")],
    },
    // Document 02's L3. No interval names these rows, so nothing tightens them behind this.
    Alteration {
        name: "rows of varying exclusive nodes at 0 and the high sentinel",
        lines: &[(
            "self.builder.reset_row_bounds();",
            "self.builder.reset_row_bounds();
             for node_row in self.node_constraints_row_ids.iter() {
                 if !matches!(node_row.row_type, NodeRowType::Continuous) {
                     let row = node_row.row_id.to_usize().unwrap();
                     self.builder.row_lower[row] = 0.0;
                     self.builder.row_upper[row] = self.builder.f64_max;
                 }
             }",
        )],
    },
    // Document 02's L3. An element's place stands for its row and column.
    Alteration {
        name: "the smallest of a step's coefficients",
        lines: &[
            (
                "for (row, col, value) in self.builder.coefficients_to_update.drain(..) {",
                "let mut places = crate::first_appearance::Places::default();
                 for (row, col, value) in self.builder.coefficients_to_update.drain(..) {",
            ),
            (
                "self.builder.elements[start + pos] = value;",
                "if places.comes_first(start + pos) || value < self.builder.elements[start + pos] {
                     self.builder.elements[start + pos] = value;
                 }",
            ),
        ],
    },
];
