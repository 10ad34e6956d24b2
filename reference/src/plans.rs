//! Plans of document 01: which the network allows under a step, and which the programme admits. Each side is written from the document by
//! itself. They share exact arithmetic, the test of a sum against two bounds, and the readers of both files (`NetworkFile::read`,
//! `step_file::read`), to which `compare` holds the port.
use crate::exact::{BITS_OF_ONE, Whole};
use crate::programme::Column;
use crate::step_checks::node_interval;
use crate::{NetworkFile, Programme, Sentinel, step_file};
use pywr_core::node::NodeType;
use pywr_core::state::State;
use std::fmt;

#[derive(Debug, Clone, PartialEq, Eq, Hash)]
pub struct Plan {
    /// Of each edge, in units of 2^-1074; at least 0.
    pub amounts: Vec<Whole>,
    /// Of each distinct exclusive set, in order of first appearance.
    pub on: Vec<bool>,
}

impl Plan {
    /// Nothing flows, each set is off.
    pub fn zero(edges: usize, sets: usize) -> Self {
        Self { amounts: vec![Whole::zero(); edges], on: vec![false; sets] }
    }

    pub fn of_doubles(amounts: &[f64], on: &[bool]) -> Self {
        Self { amounts: amounts.iter().map(|&x| Whole::of_double(x)).collect(), on: on.to_vec() }
    }

    fn sum_over(&self, edges: &[usize]) -> Whole {
        edges.iter().map(|&e| &self.amounts[e]).sum()
    }
}

/// Amounts in units of 2^-1074, then the sets that are on.
impl fmt::Display for Plan {
    fn fmt(&self, f: &mut fmt::Formatter<'_>) -> fmt::Result {
        let amounts: Vec<String> = self.amounts.iter().map(Whole::to_string).collect();
        let on: Vec<usize> = (0..self.on.len()).filter(|&k| self.on[k]).collect();
        write!(f, "amounts {} (in 2^-1074), on {on:?}", amounts.join(", "))
    }
}

/// Premise of the correspondence: whole multiples of 1/1024, at most 1,000,000 in magnitude.
pub fn is_in_1024ths(factor: f64) -> bool {
    factor.abs() <= 1e6 && Whole::of_double(factor).is_multiple_of_power(BITS_OF_ONE - 10)
}

pub fn factors_are_in_1024ths(file: &NetworkFile) -> bool {
    file.virtual_storages.iter().flat_map(|v| &v.nodes).all(|&(_, factor)| is_in_1024ths(factor))
}

/// A double in units of 2^-2148.
pub fn in_product_units(x: f64) -> Whole {
    Whole::of_double(x).shifted(BITS_OF_ONE)
}

/// "lower +infinity [..] is met by none". Sums are in units of 2^-2148.
fn at_least(sum: &Whole, lower: f64) -> bool {
    if lower.is_finite() { *sum >= in_product_units(lower) } else { lower < 0.0 }
}

/// "upper -infinity is met by none".
fn at_most(sum: &Whole, upper: f64) -> bool {
    if upper.is_finite() { *sum <= in_product_units(upper) } else { upper > 0.0 }
}

/// "A lower bound at or under the low sentinel, or an upper at or over the high, binds nothing".
fn lies_within(sum: &Whole, (lower, upper): (f64, f64), sentinel: Sentinel) -> bool {
    let high = sentinel.high();
    (lower <= -high || at_least(sum, lower)) && (upper >= high || at_most(sum, upper))
}

/// What has an amount and an interval.
#[derive(Debug, Clone, Copy, PartialEq, Eq)]
pub enum Bounded {
    Node(usize),
    Aggregate(usize),
    VirtualStorage(usize),
}

/// What a plan can break.
#[derive(Debug, Clone, Copy, PartialEq, Eq)]
pub enum Rule {
    /// "each link's incoming amounts sum to its outgoing".
    Balance(usize),
    /// "has its amount [..] in its interval".
    Interval(Bounded),
    /// A constant exclusive node's own rule: the node and the set.
    ConstantExclusive(usize, usize),
    /// A varying one's.
    VaryingExclusive(usize, usize),
    /// An aggregate's "on sets [..] lie in min_active..max_active".
    Active(usize),
}

/// A network file and the step file last accepted.
pub struct NetworkSide<'a> {
    file: &'a NetworkFile,
    sentinel: Sentinel,
    today: (u8, u8),
    days: f64,
    numbers: State,
    incoming: Vec<Vec<usize>>,
    outgoing: Vec<Vec<usize>>,
    /// The distinct exclusive sets in order of first appearance.
    sets: Vec<&'a [usize]>,
}

impl<'a> NetworkSide<'a> {
    pub fn new(file: &'a NetworkFile, sentinel: Sentinel, step: &[u8]) -> Self {
        let (timestep, numbers) = step_file::read(file, step).expect("a step that was accepted");
        let date = timestep.date.date();
        let edges = |end: fn(&(usize, usize)) -> usize| {
            let of = |n| (0..file.edges.len()).filter(|&e| end(&file.edges[e]) == n).collect();
            (0..file.nodes.len()).map(of).collect::<Vec<Vec<usize>>>()
        };
        let mut sets: Vec<&[usize]> = Vec::new();
        for set in file.aggregates.iter().filter(|a| a.exclusive.is_some()).flat_map(|a| &a.sets) {
            if !sets.contains(&&set[..]) {
                sets.push(set);
            }
        }
        Self {
            file,
            sentinel,
            today: (date.month() as u8, date.day() as u8),
            days: timestep.days(),
            numbers,
            incoming: edges(|edge| edge.1),
            outgoing: edges(|edge| edge.0),
            sets,
        }
    }

    pub fn file(&self) -> &NetworkFile {
        self.file
    }

    pub fn sets(&self) -> &[&'a [usize]] {
        &self.sets
    }

    pub fn allows(&self, plan: &Plan) -> bool {
        self.broken(plan).next().is_none()
    }

    /// The rules that the plan breaks.
    pub fn broken<'b>(&'b self, plan: &'b Plan) -> impl Iterator<Item = Rule> + 'b {
        assert_eq!((plan.amounts.len(), plan.on.len()), (self.file.edges.len(), self.sets.len()));
        assert!(plan.amounts.iter().all(|amount| !amount.is_negative()), "{plan}");
        let links = (0..self.file.nodes.len()).filter(|&n| self.file.nodes[n].kind == NodeType::Link);
        let aggregates = 0..self.file.aggregates.len();
        (links.filter(|&n| !self.balances(n, plan)).map(Rule::Balance))
            .chain(self.bounded().filter(|&what| !self.is_within(what, plan)).map(Rule::Interval))
            .chain(self.listed().filter(|&(n, k)| !self.obeys(n, plan.on[k], plan)).map(|(n, k)| self.rule_of_listed(n, k)))
            .chain(aggregates.filter(|&a| !self.is_active_enough(a, plan)).map(Rule::Active))
    }

    /// "every node in no exclusive set, every aggregate and every virtual storage".
    pub fn bounded(&self) -> impl Iterator<Item = Bounded> {
        let nodes = (0..self.file.nodes.len()).filter(|n| !self.sets.iter().any(|set| set.contains(n))).map(Bounded::Node);
        nodes
            .chain((0..self.file.aggregates.len()).map(Bounded::Aggregate))
            .chain((0..self.file.virtual_storages.len()).map(Bounded::VirtualStorage))
    }

    /// The varying exclusive nodes, whose intervals bind where their sets are on.
    pub fn varying_exclusive(&self) -> impl Iterator<Item = Bounded> {
        self.file.varying_exclusive_nodes().into_iter().map(Bounded::Node)
    }

    /// Each exclusive node with each set that lists it, one that is listed twice in a set once.
    pub fn listed(&self) -> impl Iterator<Item = (usize, usize)> {
        let of_set = |(k, set): (usize, &&'a [usize])| {
            let set = *set;
            (0..set.len()).filter(|&i| !set[..i].contains(&set[i])).map(move |i| (set[i], k))
        };
        self.sets.iter().enumerate().flat_map(of_set)
    }

    fn rule_of_listed(&self, node: usize, set: usize) -> Rule {
        match self.file.nodes[node].constant {
            Some(_) => Rule::ConstantExclusive(node, set),
            None => Rule::VaryingExclusive(node, set),
        }
    }

    fn is_within(&self, what: Bounded, plan: &Plan) -> bool {
        lies_within(&self.amount(what, plan), self.interval(what), self.sentinel)
    }

    fn balances(&self, link: usize, plan: &Plan) -> bool {
        plan.sum_over(&self.incoming[link]) == plan.sum_over(&self.outgoing[link])
    }

    /// "input and link use outgoing edges, output incoming, storage + incoming - outgoing", in units of 2^-1074.
    fn node_amount(&self, node: usize, plan: &Plan) -> Whole {
        match self.file.nodes[node].kind {
            NodeType::Input | NodeType::Link => plan.sum_over(&self.outgoing[node]),
            NodeType::Output => plan.sum_over(&self.incoming[node]),
            NodeType::Storage => &plan.sum_over(&self.incoming[node]) - &plan.sum_over(&self.outgoing[node]),
        }
    }

    /// In units of 2^-2148. An aggregate has "the node rows of every node listed", a virtual storage "minus factor times node row".
    pub fn amount(&self, what: Bounded, plan: &Plan) -> Whole {
        match what {
            Bounded::Node(n) => self.node_amount(n, plan).shifted(BITS_OF_ONE),
            Bounded::Aggregate(a) => {
                let listed = self.file.aggregates[a].sets.iter().flatten();
                listed.map(|&n| self.node_amount(n, plan)).sum::<Whole>().shifted(BITS_OF_ONE)
            }
            Bounded::VirtualStorage(v) => {
                let parts = self.file.virtual_storages[v].nodes.iter();
                -&parts.map(|&(n, factor)| &Whole::of_double(factor) * &self.node_amount(n, plan)).sum::<Whole>()
            }
        }
    }

    /// A node's by its own rule; "the step file's pair [..] for an aggregate"; a virtual storage's by its volumes.
    pub fn interval(&self, what: Bounded) -> (f64, f64) {
        match what {
            Bounded::Node(n) => node_interval(&self.file.nodes[n], &self.numbers.nodes[n], self.days),
            Bounded::Aggregate(a) => (self.numbers.aggregates[a].lower, self.numbers.aggregates[a].upper),
            Bounded::VirtualStorage(v) if is_active(self.file.virtual_storages[v].period, self.today) => {
                let numbers = self.numbers.virtual_storages[v];
                let available = (numbers.volume - numbers.min).max(0.0);
                let missing = (numbers.max - numbers.volume).max(0.0);
                (-available / self.days, missing / self.days)
            }
            Bounded::VirtualStorage(_) => (-self.sentinel.high(), self.sentinel.high()),
        }
    }

    /// A constant node's: "at most min(max, 1e6) when on and 0 when off, and if min isn't 0 at least max(min, 1e-6) when on and 0 when off". A varying
    /// one's: "flow between lower and upper when on, 0 when off".
    fn obeys(&self, node: usize, on: bool, plan: &Plan) -> bool {
        let (lower, upper) = self.interval(Bounded::Node(node));
        let amount = self.node_amount(node, plan).shifted(BITS_OF_ONE);
        let is_constant = self.file.nodes[node].constant.is_some();
        let (least, most) = match (on, is_constant) {
            (false, _) => (0.0, 0.0),
            (true, true) => (lower.max(1e-6), upper.min(1e6)),
            (true, false) => (lower, upper),
        };
        at_most(&amount, most) && (is_constant && lower == 0.0 || at_least(&amount, least))
    }

    /// "the on sets of each exclusive aggregate, repeats counted".
    pub fn active(&self, aggregate: usize, plan: &Plan) -> u32 {
        let set_of = |set: &[usize]| self.sets.iter().position(|distinct| *distinct == set);
        let sets = self.file.aggregates[aggregate].sets.iter();
        sets.filter(|set| set_of(set).is_some_and(|k| plan.on[k])).count() as u32
    }

    fn is_active_enough(&self, aggregate: usize, plan: &Plan) -> bool {
        let exclusive = self.file.aggregates[aggregate].exclusive;
        exclusive.is_none_or(|(least, most)| (least..=most).contains(&self.active(aggregate, plan)))
    }
}

/// "Periods compare (month, day), ends included, wrapping if start is later."
fn is_active(period: Option<[u8; 4]>, today: (u8, u8)) -> bool {
    let Some([start_month, start_day, end_month, end_day]) = period else { return true };
    let (start, end) = ((start_month, start_day), (end_month, end_day));
    if start <= end { start <= today && today <= end } else { start <= today || today <= end }
}

/// Whether the network allows a plan under the step file last accepted.
pub fn network_allows(file: &NetworkFile, sentinel: Sentinel, step: &[u8], plan: &Plan) -> bool {
    NetworkSide::new(file, sentinel, step).allows(plan)
}

/// What of a programme a plan can miss.
#[derive(Debug, Clone, Copy, PartialEq, Eq)]
pub enum Miss {
    /// Edges of this column carry unequal amounts.
    Unequal(usize),
    Column(usize),
    Row(usize),
}

/// The first that the plan misses: a column with unequal amounts, then a column's bounds, then a row's.
pub fn first_miss(programme: &Programme, columns_of_edges: &[usize], sentinel: Sentinel, plan: &Plan) -> Option<Miss> {
    assert_eq!((plan.amounts.len(), plan.on.len()), (columns_of_edges.len(), programme.sets()));
    let mut amounts: Vec<Option<&Whole>> = vec![None; programme.columns.len()];
    for (&column, amount) in columns_of_edges.iter().zip(&plan.amounts) {
        if *amounts[column].get_or_insert(amount) != amount {
            return Some(Miss::Unequal(column));
        }
    }
    let (off, on) = (Whole::zero(), Whole::of_double(1.0));
    let integer = (0..programme.columns.len()).filter(|&c| programme.columns[c].integer);
    for (column, &is_on) in integer.zip(&plan.on) {
        amounts[column] = Some(if is_on { &on } else { &off });
    }
    let amounts: Vec<&Whole> = amounts.into_iter().map(|amount| amount.expect("a column of an edge or of a set")).collect();
    let is_missed = |(column, amount): (&Column, &&Whole)| {
        let bounds = (column.lower, column.upper);
        !lies_within(&amount.shifted(BITS_OF_ONE), bounds, sentinel)
    };
    let missed = programme.columns.iter().zip(&amounts).position(is_missed);
    missed.map(Miss::Column).or_else(|| first_missed_row(programme, &amounts, sentinel))
}

fn first_missed_row(programme: &Programme, amounts: &[&Whole], sentinel: Sentinel) -> Option<Miss> {
    let missed = programme.rows.iter().position(|row| {
        let sum = row.elements.iter().map(|&(column, element)| &Whole::of_double(element) * amounts[column]).sum();
        !lies_within(&sum, (row.lower, row.upper), sentinel)
    });
    missed.map(Miss::Row)
}

/// Whether the programme admits a plan.
pub fn programme_admits(programme: &Programme, columns_of_edges: &[usize], sentinel: Sentinel, plan: &Plan) -> bool {
    first_miss(programme, columns_of_edges, sentinel, plan).is_none()
}
