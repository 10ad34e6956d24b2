//! The comparison finds what a port does wrong, with steps too.
use pywr_reference::columns::{self, Path};
use pywr_reference::comparison::{Tally, compare};
use pywr_reference::flow_costs::Costs;
use pywr_reference::port::{Answer, Port};
use pywr_reference::programme::Row;
use pywr_reference::solver::{Solver, Unaltered};
use pywr_reference::{NetworkFile, Programme, Reference, Sentinel, generate, step_file};

/// A port that is the reference, but for one fault.
struct Faulty {
    fault: Fault,
    network: Vec<u8>,
    reference: Option<Reference>,
    refused: bool,
    /// The step last accepted.
    stepped: Option<Vec<u8>>,
}

#[derive(Debug, Clone, Copy, PartialEq)]
enum Fault {
    None,
    Place,
    Bound,
    Element,
    MakerKind,
    MakerIndex,
    SharedBy,
    StoreAfterRefusal,
    OtherSentinel,
    NumberOfTwentyOne,
    ExclusiveRowsReset,
    ColumnsNotUnited,
    CostsInEdgeOrder,
    CostsUpstream,
    RingCostsFromHighestEdge,
    TableInEdgeOrder,
    RingInTableFromHighestEdge,
    RingsInTableFirst,
}

const ALL: [Fault; 18] = {
    use Fault::*;
    [
        None,
        Place,
        Bound,
        Element,
        MakerKind,
        MakerIndex,
        SharedBy,
        StoreAfterRefusal,
        OtherSentinel,
        NumberOfTwentyOne,
        ExclusiveRowsReset,
        ColumnsNotUnited,
        CostsInEdgeOrder,
        CostsUpstream,
        RingCostsFromHighestEdge,
        TableInEdgeOrder,
        RingInTableFromHighestEdge,
        RingsInTableFirst,
    ]
};

/// A column's edges in the order in which the fault adds their costs or lists them.
fn reordered(fault: Fault, path: &Path) -> Vec<usize> {
    let mut edges = path.edges.clone();
    match fault {
        Fault::CostsInEdgeOrder => edges.sort(),
        Fault::CostsUpstream => edges.reverse(),
        Fault::RingCostsFromHighestEdge | Fault::RingInTableFromHighestEdge if path.closed => {
            let highest = (0..edges.len()).max_by_key(|&at| edges[at]).unwrap();
            edges.rotate_left(highest);
        }
        _ => {}
    }
    edges
}

impl Faulty {
    /// The costs of the step last accepted, added in the order of the fault.
    fn costs(&self) -> Vec<f64> {
        let (reference, file) = (self.reference.as_ref().unwrap(), NetworkFile::read(&self.network).unwrap());
        let Some(step) = &self.stepped else { return vec![0.0; reference.paths().len()] };
        let (_, state) = step_file::read(&file, step).unwrap();
        let costs = Costs { file: &file, state: &state };
        reference.paths().iter().map(|path| costs.sum(&reordered(self.fault, path))).collect()
    }

    fn with_fault(&self, answer: Answer) -> Answer {
        answer.map(|a| {
            a.map_err(|mut r| {
                r.place += (self.fault == Fault::Place) as usize;
                if self.fault == Fault::NumberOfTwentyOne && r.number == 21 {
                    r.number = 14;
                }
                r
            })
        })
    }
}

impl Port for Faulty {
    fn sentinel(&self, wanted: Sentinel) -> Sentinel {
        wanted
    }

    fn has_steps(&self) -> bool {
        true
    }

    fn build(&mut self, network: &[u8], sentinel: Sentinel) -> Answer {
        let sentinel = if self.fault == Fault::OtherSentinel { Sentinel::Infinity } else { sentinel };
        (self.network, self.refused, self.stepped) = (network.to_vec(), false, None);
        let build = Reference::build(network, sentinel).map(|built| self.reference = Some(built));
        self.with_fault(Ok(build))
    }

    fn step(&mut self, step: &[u8]) -> Answer {
        let answer = self.reference.as_mut().unwrap().step(step);
        self.refused = answer.is_err();
        if answer.is_ok() {
            self.stepped = Some(step.to_vec());
        }
        self.with_fault(Ok(answer))
    }

    fn programme(&mut self) -> Result<Programme, String> {
        let mut programme = self.reference.as_ref().unwrap().programme().clone();
        match self.fault {
            Fault::Bound => programme.rows.iter_mut().for_each(|r| r.upper = r.upper.next_down()),
            Fault::Element => programme.rows.iter_mut().flat_map(|r| &mut r.elements).for_each(|e| e.1 = -e.1),
            Fault::MakerKind => programme.makers.iter_mut().for_each(|m| m.kind ^= 1),
            Fault::MakerIndex => programme.makers.iter_mut().for_each(|m| m.index += 1),
            Fault::SharedBy => programme.makers.iter_mut().for_each(|m| m.shared_by = 1),
            Fault::ExclusiveRowsReset if self.stepped.is_some() => {
                let integer: Vec<bool> = programme.columns.iter().map(|c| c.integer).collect();
                let is_varying_exclusive = |r: &&mut Row| r.varying && r.elements.iter().any(|e| integer[e.0]);
                programme.rows.iter_mut().filter(is_varying_exclusive).for_each(|r| r.lower = -r.upper);
            }
            Fault::StoreAfterRefusal if self.refused => programme.columns[0].cost += 1.0,
            Fault::CostsInEdgeOrder | Fault::CostsUpstream | Fault::RingCostsFromHighestEdge => {
                programme.columns.iter_mut().zip(self.costs()).for_each(|(column, cost)| column.cost = cost);
            }
            _ => {}
        }
        // Zeros of either sign are equal.
        programme.columns.iter_mut().for_each(|c| c.lower = -c.lower);
        Ok(programme)
    }

    fn columns_of_edges(&self) -> Option<Vec<usize>> {
        if self.fault != Fault::ColumnsNotUnited {
            return self.reference.as_ref().map(Reference::columns_of_edges);
        }
        let network = NetworkFile::read(&self.network).unwrap().network();
        Some(Unaltered::create(&network, f64::INFINITY).unwrap().columns_of_edges(&network))
    }

    fn flow_order(&self) -> Option<Vec<usize>> {
        let mut paths = self.reference.as_ref()?.paths().to_vec();
        match self.fault {
            Fault::RingInTableFromHighestEdge => paths.iter_mut().for_each(|path| path.edges = reordered(self.fault, path)),
            Fault::RingsInTableFirst => paths.iter_mut().for_each(|path| path.closed = !path.closed),
            Fault::TableInEdgeOrder => return Some((0..columns::flow_order(&paths).len()).collect()),
            _ => {}
        }
        Some(columns::flow_order(&paths))
    }
}

#[test]
fn faults_are_found() {
    for fault in ALL {
        let port = Faulty { fault, network: Vec::new(), reference: None, refused: false, stepped: None };
        let mut port: Option<Box<dyn Port>> = Some(Box::new(port));
        let mut tally = Tally::default();
        // Few networks have a closed ring, and few of its sums tell where it starts.
        let of_rings = [Fault::RingCostsFromHighestEdge, Fault::RingInTableFromHighestEdge, Fault::RingsInTableFirst];
        let count = if of_rings.contains(&fault) { 1000 } else { 200 };
        let cases = (0..count).map(|i| generate::case(4, i));
        let failures = cases.filter(|case| compare(case, &mut port, &mut tally).is_err()).count();
        assert_eq!(tally.builds_compared, count);
        let is_due = if fault == Fault::None { failures == 0 && tally.steps_compared > 200 } else { failures > 10 };
        assert!(is_due, "{fault:?}: {failures} failures");
    }
}
