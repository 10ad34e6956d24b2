//! Plans for a network under a step: amounts that balance at links, moved onto a bound and beside it; sets on where they must be.
use crate::NetworkFile;
use crate::exact::{BITS_OF_ONE, Whole};
use crate::plans::{Bounded, NetworkSide, Plan, Rule, in_product_units};
use crate::random::Random;
use pywr_core::node::NodeType;
use std::mem::discriminant;

/// How often a plan is moved onto a bound that it misses.
const ROUNDS: usize = 12;

/// Edges one behind the other, with links between them.
type Walk = Vec<usize>;

/// Walks of a network.
pub struct Walks<'a> {
    file: &'a NetworkFile,
    incoming: Vec<Vec<usize>>,
    outgoing: Vec<Vec<usize>>,
}

impl<'a> Walks<'a> {
    pub fn new(file: &'a NetworkFile) -> Self {
        let none = vec![Vec::new(); file.nodes.len()];
        let (mut incoming, mut outgoing) = (none.clone(), none);
        for (e, &(from, to)) in file.edges.iter().enumerate() {
            outgoing[from].push(e);
            incoming[to].push(e);
        }
        Self { file, incoming, outgoing }
    }

    /// A walk over any edge.
    pub fn any(&self, r: &mut Random) -> Walk {
        let edge = r.below(self.file.edges.len());
        self.over(r, edge)
    }

    /// A walk over an edge of the node; none if it has no edge.
    fn through(&self, r: &mut Random, node: usize) -> Option<Walk> {
        let edges = [&self.incoming[node][..], &self.outgoing[node][..]].concat();
        (!edges.is_empty()).then(|| {
            let edge = *r.pick(&edges);
            self.over(r, edge)
        })
    }

    /// From an input or a storage over the edge to an output or a storage, or round a ring.
    fn over(&self, r: &mut Random, edge: usize) -> Walk {
        let (forth, ring) = self.followed(r, edge, |file, e| file.edges[e].1, &self.outgoing);
        if ring {
            return forth;
        }
        let (mut back, ring) = self.followed(r, edge, |file, e| file.edges[e].0, &self.incoming);
        back.reverse();
        if ring { back } else { [&back[..], &forth[1..]].concat() }
    }

    /// The edge and others at the ends of links, as far as they go; or, as soon as a link comes again, the ring alone.
    fn followed(&self, r: &mut Random, edge: usize, end: fn(&NetworkFile, usize) -> usize, next: &[Vec<usize>]) -> (Walk, bool) {
        let (mut walk, mut links) = (vec![edge], Vec::new());
        loop {
            let node = end(self.file, walk[walk.len() - 1]);
            if self.file.nodes[node].kind != NodeType::Link {
                return (walk, false);
            }
            if let Some(first) = links.iter().position(|&link| link == node) {
                return (walk.split_off(first + 1), true);
            }
            links.push(node);
            walk.push(*r.pick(&next[node]));
        }
    }
}

/// An amount more on each edge of a walk, or less; none if an edge would have less than nothing.
pub fn pushed(plan: &Plan, walk: &[usize], amount: &Whole) -> Option<Plan> {
    let mut pushed = plan.clone();
    for &edge in walk {
        pushed.amounts[edge] = &pushed.amounts[edge] + amount;
    }
    walk.iter().all(|&edge| !pushed.amounts[edge].is_negative()).then_some(pushed)
}

/// The plan with one set on in place of off, or off in place of on.
fn with_switched(plan: &Plan, set: usize) -> Plan {
    let mut switched = plan.clone();
    switched.on[set] ^= true;
    switched
}

/// Everyday amounts, a few of the smallest units, and large ones.
fn amount(r: &mut Random) -> Whole {
    match r.below(10) {
        0..4 => Whole::of_double(r.below(10) as f64),
        4..6 => Whole::of_double(r.below(800) as f64 / 8.0),
        6 => Whole::of_double(r.below(100_000) as f64 / 1000.0),
        7 => Whole::from(r.between(1, 3) as i128),
        8 => &Whole::of_double(r.below(5) as f64) + &Whole::from(r.below(3) as i128),
        _ => Whole::of_double(*r.pick(&[1e6, 1e6 + 0.5, 1e12, 1e-6, 1e300, f64::MAX])),
    }
}

/// The smallest unit, less and more.
pub fn units() -> [Whole; 2] {
    [Whole::from(-1), Whole::from(1)]
}

/// 1, less and more.
pub fn ones() -> [Whole; 2] {
    units().map(|unit| unit.shifted(BITS_OF_ONE))
}

/// What misses a bound of its interval.
fn missed_interval(rule: &Rule) -> Option<Bounded> {
    match *rule {
        Rule::Interval(what) => Some(what),
        Rule::VaryingExclusive(node, _) => Some(Bounded::Node(node)),
        Rule::Balance(_) | Rule::ConstantExclusive(..) | Rule::Active(_) => None,
    }
}

/// Plans for one network under one step.
pub struct Planner<'a> {
    side: &'a NetworkSide<'a>,
    walks: Walks<'a>,
}

impl<'a> Planner<'a> {
    pub fn new(side: &'a NetworkSide<'a>) -> Self {
        Self { side, walks: Walks::new(side.file()) }
    }

    fn zero(&self) -> Plan {
        Plan::zero(self.side.file().edges.len(), self.side.sets().len())
    }

    /// Amounts that mostly do not balance, on any set.
    fn unbalanced(&self, r: &mut Random) -> Plan {
        let mut plan = self.zero();
        plan.amounts.iter_mut().for_each(|a| *a = if r.chance(50) { amount(r) } else { Whole::zero() });
        plan.on.iter_mut().for_each(|on| *on = r.chance(50));
        plan
    }

    fn balanced(&self, r: &mut Random) -> Plan {
        let mut plan = self.zero();
        for _ in 0..r.between(1, 4) {
            let walk = self.walks.any(r);
            plan = pushed(&plan, &walk, &amount(r)).unwrap();
        }
        self.switched(r, plan)
    }

    /// From the plan on, again and again onto a bound that it misses, if it then breaks no more rules than before.
    fn repaired(&self, r: &mut Random, plan: Plan) -> Plan {
        let mut plan = self.switched(r, plan);
        let mut broken: Vec<Rule> = self.side.broken(&plan).collect();
        for _ in 0..ROUNDS {
            let missed: Vec<Bounded> = broken.iter().filter_map(missed_interval).collect();
            if missed.is_empty() {
                break;
            }
            let what = *r.pick(&missed);
            if let Some((moved, _)) = self.onto_bound(r, &plan, what) {
                let moved = self.switched(r, moved);
                let still: Vec<Rule> = self.side.broken(&moved).collect();
                if still.len() <= broken.len() {
                    (plan, broken) = (moved, still);
                }
            }
        }
        plan
    }

    /// Onto a bound of something: the bound that it misses if it misses one.
    fn onto_bound(&self, r: &mut Random, plan: &Plan, what: Bounded) -> Option<(Plan, Walk)> {
        let (lower, upper) = self.side.interval(what);
        let amount = self.side.amount(what, plan);
        let misses_lower = lower.is_finite() && amount < in_product_units(lower);
        let misses_upper = upper.is_finite() && amount > in_product_units(upper);
        let first = if misses_lower || !misses_upper && r.chance(50) { lower } else { upper };
        let target = [first, lower, upper].into_iter().find(|bound| bound.is_finite())?;
        self.onto(r, plan, what, target)
    }

    /// To an amount of something, or as near to it as whole units come, by one walk.
    fn onto(&self, r: &mut Random, plan: &Plan, what: Bounded, target: f64) -> Option<(Plan, Walk)> {
        let walk = self.walk_that_moves(r, what)?;
        let missing = &in_product_units(target) - &self.side.amount(what, plan);
        let more = missing.divided_by(&self.slope(what, &walk))?;
        Some((pushed(plan, &walk, &more)?, walk))
    }

    /// What one unit along a walk makes of an amount.
    fn slope(&self, what: Bounded, walk: &[usize]) -> Whole {
        self.side.amount(what, &pushed(&self.zero(), walk, &Whole::from(1)).unwrap())
    }

    pub fn walk_that_moves(&self, r: &mut Random, what: Bounded) -> Option<Walk> {
        let file = self.side.file();
        let nodes: Vec<usize> = match what {
            Bounded::Node(n) => vec![n],
            Bounded::Aggregate(a) => file.aggregates[a].sets.concat(),
            Bounded::VirtualStorage(v) => file.virtual_storages[v].nodes.iter().map(|part| part.0).collect(),
        };
        for _ in 0..4 {
            let node = *r.pick(&nodes);
            if let Some(walk) = self.walks.through(r, node).filter(|walk| !self.slope(what, walk).is_zero()) {
                return Some(walk);
            }
        }
        None
    }

    /// On are the sets with a node that has an amount, and others until each aggregate has enough.
    fn switched(&self, r: &mut Random, mut plan: Plan) -> Plan {
        let file = self.side.file();
        let sets = self.side.sets();
        plan.on = (sets.iter())
            .map(|set| set.iter().any(|&n| !self.side.amount(Bounded::Node(n), &plan).is_zero()) || r.chance(5))
            .collect();
        for (a, aggregate) in file.aggregates.iter().enumerate() {
            let mut order: Vec<&Vec<usize>> = aggregate.sets.iter().collect();
            r.shuffle(&mut order);
            for set in order {
                if aggregate.exclusive.is_some_and(|(least, _)| self.side.active(a, &plan) < least) {
                    plan.on[sets.iter().position(|distinct| distinct == set).unwrap()] = true;
                }
            }
        }
        plan
    }

    /// One of each kind: nothing, any amounts, balanced ones, such as miss fewer bounds; and each moved onto a bound and beside it.
    pub fn plans(&self, r: &mut Random) -> Vec<Plan> {
        let zero = self.switched(r, self.zero());
        let balanced = self.balanced(r);
        let mut plans =
            vec![self.unbalanced(r), self.repaired(r, zero.clone()), self.repaired(r, balanced.clone()), zero, balanced];
        let bounded: Vec<Bounded> = self.side.bounded().chain(self.side.varying_exclusive()).collect();
        for base in plans.clone() {
            let what = *r.pick(&bounded);
            let moved = self.onto_bound_and_beside(r, &base, what);
            plans.extend(moved.into_iter().map(|plan| self.switched(r, plan)));
        }
        plans
    }

    /// A plan, and others around it: a unit more on one edge, a set switched; onto bounds of up to three nodes, aggregates and virtual storages each, and
    /// of varying exclusive nodes, and beside them; links that do not balance.
    pub fn around(&self, r: &mut Random, plan: &Plan) -> Vec<Plan> {
        let edge = r.below(plan.amounts.len());
        let mut plans = vec![plan.clone(), pushed(plan, &[edge], &Whole::from(1)).unwrap()];
        if !plan.on.is_empty() {
            let set = r.below(plan.on.len());
            plans.push(with_switched(plan, set));
        }
        let mut bounded: Vec<Bounded> = self.side.bounded().collect();
        for kind in bounded.chunk_by_mut(|a, b| discriminant(a) == discriminant(b)) {
            r.shuffle(kind);
            for &what in kind.iter().take(3) {
                plans.extend(self.onto_bound_and_beside(r, plan, what));
            }
        }
        plans.extend(self.around_exclusive(r, plan));
        plans.extend(self.around_links(r, plan));
        plans
    }

    /// A unit more on a walk up to each of its links, at most six: that link does not balance, nor does the first one of a ring.
    fn around_links(&self, r: &mut Random, plan: &Plan) -> Vec<Plan> {
        let walk = self.walks.any(r);
        let mut lengths: Vec<usize> = (1..walk.len()).collect();
        r.shuffle(&mut lengths);
        lengths.iter().take(6).map(|&length| pushed(plan, &walk[..length], &Whole::from(1)).unwrap()).collect()
    }

    /// Onto both bounds of up to two varying exclusive nodes and beside them, with a set of theirs as it is, and switched.
    fn around_exclusive(&self, r: &mut Random, plan: &Plan) -> Vec<Plan> {
        let (file, sets) = (self.side.file(), self.side.sets());
        let mut nodes = file.varying_exclusive_nodes();
        r.shuffle(&mut nodes);
        let mut plans = Vec::new();
        for &node in nodes.iter().take(2) {
            let listing: Vec<usize> = (0..sets.len()).filter(|&k| sets[k].contains(&node)).collect();
            let (lower, upper) = self.side.interval(Bounded::Node(node));
            for bound in [lower, upper] {
                for moved in with_beside(self.onto(r, plan, Bounded::Node(node), bound)) {
                    plans.push(with_switched(&moved, *r.pick(&listing)));
                    plans.push(moved);
                }
            }
        }
        plans
    }

    fn onto_bound_and_beside(&self, r: &mut Random, plan: &Plan, what: Bounded) -> Vec<Plan> {
        with_beside(self.onto_bound(r, plan, what))
    }
}

/// A plan that a walk has moved, and those a unit and 1 to either side of it.
fn with_beside(moved: Option<(Plan, Walk)>) -> Vec<Plan> {
    let Some((plan, walk)) = moved else { return Vec::new() };
    let beside: Vec<Plan> = units().into_iter().chain(ones()).filter_map(|more| pushed(&plan, &walk, &more)).collect();
    [vec![plan], beside].concat()
}
