//! Plans of generated networks, tried on both sides: where the premise on factors holds, the network allows exactly what the programme admits.
use crate::exact::{BITS_OF_ONE, Whole};
use crate::generate::encode::{network_records, step_records};
use crate::generate::fitted::{Fitted, fitted};
use crate::generate::plans::{Planner, ones, pushed, units};
use crate::generate::{self, Case};
use crate::makers::have_equal_rows;
use crate::plans::*;
use crate::random::Random;
use crate::reference::Unions;
use crate::{NetworkFile, Programme, Reference, Sentinel, case_file};
use pywr_core::network::VirtualStorageParts;
use pywr_core::node::NodeType;
use std::collections::{BTreeMap, HashSet};
use std::fmt;

/// How much was tried.
#[derive(Default)]
pub struct Tried {
    /// Networks on which plans were tried; those with a fractional factor; with a column on which several parts of a virtual storage add.
    pub networks: usize,
    pub with_fractions: usize,
    pub with_several_parts: usize,
    /// With a varying exclusive node; with columns that unite.
    pub with_varying_exclusive: usize,
    pub with_unions: usize,
    /// Programmes after an accepted step.
    pub programmes: usize,
    /// Plans that a network and a step were made to fit, and how many of them are allowed.
    pub fitted: usize,
    pub fitted_allowed: usize,
    pub plans: usize,
    pub allowed: usize,
    pub forbidden_by_one: ByRule,
    /// Allowed, with an amount of a virtual storage, which is not 0, on its bound: once for each such virtual storage.
    pub on_a_bound: ByFactors,
    /// A unit or 1 beside such a plan, and forbidden by one of these virtual storages alone.
    pub a_unit_beside: ByFactors,
    pub one_beside: ByFactors,
    /// Allowed, with an amount of a varying exclusive node, which is not 0, on its bound: once for each such node and set, which is on.
    pub on_an_exclusive_bound: OfExclusive,
    /// Forbidden by a varying exclusive node alone, whose set is on and whose amount is a unit beyond a bound.
    pub a_unit_beyond: OfExclusive,
    /// Forbidden by varying exclusive nodes of one set alone, which is off.
    pub off: OfExclusive,
    /// The plans tried on the last programme: each is tried once.
    seen: HashSet<Plan>,
}

/// Plans that one rule alone forbids.
#[derive(Default)]
pub struct ByRule {
    balance: usize,
    node: usize,
    aggregate: usize,
    virtual_storage: usize,
    constant_exclusive: usize,
    varying_exclusive: usize,
    active_sets: usize,
}

/// By the rows of the varying exclusive node: its set's alone, or shared with another varying node of the set; of these two, storages.
#[derive(Default)]
pub struct OfExclusive {
    own_rows: usize,
    shared_rows: usize,
    storages: usize,
}

/// By the factors of the virtual storage.
#[derive(Default)]
pub struct ByFactors {
    whole: usize,
    fractional: usize,
}

impl Tried {
    fn count_network(&mut self, file: &NetworkFile, columns_of_edges: &[usize], unions: Unions) {
        let several = |v| parts_by_column(file, columns_of_edges, v).values().any(|parts| parts.len() > 1);
        self.networks += 1;
        self.with_fractions += file.virtual_storages.iter().any(has_fractions) as usize;
        self.with_several_parts += file.virtual_storages.iter().any(several) as usize;
        self.with_varying_exclusive += !file.varying_exclusive_nodes().is_empty() as usize;
        self.with_unions += (unions.count > 0) as usize;
    }

    fn start_programme(&mut self) {
        self.programmes += 1;
        self.seen.clear();
    }

    fn count_plan(&mut self, broken: &[Rule]) {
        self.plans += 1;
        match broken {
            [] => self.allowed += 1,
            [rule] => self.forbidden_by_one.count(*rule),
            _ => {}
        }
    }

    pub fn forbidden(&self) -> usize {
        self.plans - self.allowed
    }
}

impl ByRule {
    fn count(&mut self, rule: Rule) {
        let plans = match rule {
            Rule::Balance(_) => &mut self.balance,
            Rule::Interval(Bounded::Node(_)) => &mut self.node,
            Rule::Interval(Bounded::Aggregate(_)) => &mut self.aggregate,
            Rule::Interval(Bounded::VirtualStorage(_)) => &mut self.virtual_storage,
            Rule::ConstantExclusive(..) => &mut self.constant_exclusive,
            Rule::VaryingExclusive(..) => &mut self.varying_exclusive,
            Rule::Active(_) => &mut self.active_sets,
        };
        *plans += 1;
    }

    pub fn least(&self) -> usize {
        let Self { balance, node, aggregate, virtual_storage, constant_exclusive, varying_exclusive, active_sets } = *self;
        let exclusive = constant_exclusive.min(varying_exclusive);
        [balance, node, aggregate, virtual_storage, exclusive, active_sets].into_iter().min().unwrap()
    }
}

impl OfExclusive {
    pub fn least(&self) -> usize {
        self.own_rows.min(self.shared_rows).min(self.storages)
    }
}

impl ByFactors {
    fn count(&mut self, storage: &VirtualStorageParts) {
        if has_fractions(storage) {
            self.fractional += 1;
        } else {
            self.whole += 1;
        }
    }

    pub fn least(&self) -> usize {
        self.whole.min(self.fractional)
    }
}

/// One line for each count.
impl fmt::Display for Tried {
    fn fmt(&self, f: &mut fmt::Formatter<'_>) -> fmt::Result {
        writeln!(f, "networks: {}", self.networks)?;
        writeln!(f, "  with fractional factors: {}", self.with_fractions)?;
        writeln!(f, "  with several parts on a column: {}", self.with_several_parts)?;
        writeln!(f, "  with varying exclusive nodes: {}", self.with_varying_exclusive)?;
        writeln!(f, "  with columns that unite: {}", self.with_unions)?;
        writeln!(f, "programmes: {}", self.programmes)?;
        if self.fitted > 0 {
            writeln!(f, "fitted plans: {}", self.fitted)?;
            writeln!(f, "  allowed: {}", self.fitted_allowed)?;
        }
        writeln!(f, "plans: {}", self.plans)?;
        writeln!(f, "  allowed: {}", self.allowed)?;
        writeln!(f, "  forbidden: {}", self.forbidden())?;
        writeln!(f, "forbidden by one rule alone: {}", self.forbidden_by_one)?;
        writeln!(f, "on a virtual storage's bound: {}", self.on_a_bound)?;
        writeln!(f, "  2^-1074 beside: {}", self.a_unit_beside)?;
        writeln!(f, "  1 beside: {}", self.one_beside)?;
        writeln!(f, "on a varying exclusive node's bound: {}", self.on_an_exclusive_bound)?;
        writeln!(f, "  2^-1074 beyond: {}", self.a_unit_beyond)?;
        writeln!(f, "forbidden by varying exclusive nodes of one set that is off: {}", self.off)
    }
}

impl fmt::Display for ByRule {
    fn fmt(&self, f: &mut fmt::Formatter<'_>) -> fmt::Result {
        let Self { balance, node, aggregate, virtual_storage, constant_exclusive, varying_exclusive, active_sets } = self;
        write!(f, "balance {balance}, node {node}, aggregate {aggregate}, virtual storage {virtual_storage}, ")?;
        write!(f, "exclusive node, constant {constant_exclusive}, varying {varying_exclusive}, active sets {active_sets}")
    }
}

impl fmt::Display for OfExclusive {
    fn fmt(&self, f: &mut fmt::Formatter<'_>) -> fmt::Result {
        let Self { own_rows, shared_rows, storages } = self;
        write!(f, "{} (own rows {own_rows}, shared {shared_rows}; storages {storages})", own_rows + shared_rows)
    }
}

impl fmt::Display for ByFactors {
    fn fmt(&self, f: &mut fmt::Formatter<'_>) -> fmt::Result {
        let Self { whole, fractional } = self;
        write!(f, "{} (whole factors {whole}, fractional {fractional})", whole + fractional)
    }
}

pub fn has_fractions(storage: &VirtualStorageParts) -> bool {
    storage.nodes.iter().any(|&(_, factor)| factor.fract() != 0.0)
}

fn is_of_set(rule: &Rule, set: usize) -> bool {
    matches!(rule, Rule::VaryingExclusive(_, k) if *k == set)
}

/// What a virtual storage's parts add to each column, in the order of the parts: "minus factor times node row".
pub fn parts_by_column(
    file: &NetworkFile,
    columns_of_edges: &[usize],
    storage: &VirtualStorageParts,
) -> BTreeMap<usize, Vec<f64>> {
    let mut parts: BTreeMap<usize, Vec<f64>> = BTreeMap::new();
    for &(node, factor) in &storage.nodes {
        for (&(from, to), &column) in file.edges.iter().zip(columns_of_edges) {
            let part = match file.nodes[node].kind {
                NodeType::Input | NodeType::Link if from == node => -factor,
                NodeType::Output | NodeType::Storage if to == node => -factor,
                NodeType::Storage if from == node => factor,
                _ => continue,
            };
            parts.entry(column).or_default().push(part);
        }
    }
    parts
}

/// A programme after a list of steps, and the network under the last accepted one.
struct Sides<'a> {
    network: NetworkSide<'a>,
    programme: &'a Programme,
    columns_of_edges: &'a [usize],
    sentinel: Sentinel,
}

impl Sides<'_> {
    /// The rules that the plan breaks, or none if it was tried before; an error if the sides differ.
    fn compare(&self, plan: &Plan, tried: &mut Tried) -> Result<Option<Vec<Rule>>, String> {
        if !tried.seen.insert(plan.clone()) {
            return Ok(None);
        }
        let broken: Vec<Rule> = self.network.broken(plan).collect();
        tried.count_plan(&broken);
        self.count_bounds(plan, &broken, tried);
        match first_miss(self.programme, self.columns_of_edges, self.sentinel, plan) {
            None if !broken.is_empty() => Err(format!("admitted, but the network forbids it by {broken:?}: {plan}")),
            Some(missed) if broken.is_empty() => Err(format!("allowed, but the programme misses {missed:?}: {plan}")),
            _ => Ok(Some(broken)),
        }
    }

    /// Counts what stands on bounds in an allowed plan, and the varying exclusive nodes that alone forbid another.
    fn count_bounds(&self, plan: &Plan, broken: &[Rule], tried: &mut Tried) {
        match *broken {
            [] => {
                self.on_bounds(plan).iter().for_each(|&v| tried.on_a_bound.count(self.storage(v)));
                for (n, k) in self.on_exclusive_bounds(plan) {
                    self.count_exclusive(&mut tried.on_an_exclusive_bound, n, k);
                }
            }
            [Rule::VaryingExclusive(n, k), ..] if !plan.on[k] && broken.iter().all(|rule| is_of_set(rule, k)) => {
                self.count_exclusive(&mut tried.off, n, k)
            }
            [Rule::VaryingExclusive(n, k)] if self.is_a_unit_beyond(n, plan) => {
                self.count_exclusive(&mut tried.a_unit_beyond, n, k)
            }
            _ => {}
        }
    }

    fn count_exclusive(&self, counts: &mut OfExclusive, node: usize, set: usize) {
        let file = self.network.file();
        let equal = |m: usize| have_equal_rows(file, self.columns_of_edges, m, node);
        let shares = |&m: &usize| m != node && file.nodes[m].constant.is_none() && equal(m);
        if self.network.sets()[set].iter().any(shares) {
            counts.shared_rows += 1;
        } else {
            counts.own_rows += 1;
        }
        counts.storages += (file.nodes[node].kind == NodeType::Storage) as usize;
    }

    /// The varying exclusive nodes with an amount, which is not 0, on a bound, and their sets that are on.
    fn on_exclusive_bounds(&self, plan: &Plan) -> Vec<(usize, usize)> {
        let is_on_bound = |n: usize| {
            let (lower, upper) = self.network.interval(Bounded::Node(n));
            let amount = self.network.amount(Bounded::Node(n), plan);
            !amount.is_zero() && [lower, upper].map(in_product_units).contains(&amount)
        };
        let varies = |n: usize| self.network.file().nodes[n].constant.is_none();
        self.network.listed().filter(|&(n, k)| plan.on[k] && varies(n) && is_on_bound(n)).collect()
    }

    fn is_a_unit_beyond(&self, node: usize, plan: &Plan) -> bool {
        let (lower, upper) = self.network.interval(Bounded::Node(node));
        let amount = self.network.amount(Bounded::Node(node), plan);
        let unit = Whole::from(1).shifted(BITS_OF_ONE);
        [&in_product_units(lower) - &unit, &in_product_units(upper) + &unit].contains(&amount)
    }

    fn storage(&self, storage: usize) -> &VirtualStorageParts {
        &self.network.file().virtual_storages[storage]
    }

    /// The virtual storages with an amount that is a bound of theirs, one that binds.
    fn on_bounds(&self, plan: &Plan) -> Vec<usize> {
        let binds = |bound: f64| bound.abs() < self.sentinel.high();
        let is_on = |&v: &usize| {
            let what = Bounded::VirtualStorage(v);
            let (amount, (lower, upper)) = (self.network.amount(what, plan), self.network.interval(what));
            !amount.is_zero() && [lower, upper].into_iter().any(|bound| binds(bound) && in_product_units(bound) == amount)
        };
        (0..self.network.file().virtual_storages.len()).filter(is_on).collect()
    }

    /// Tries plans and, where one is allowed and on bounds of virtual storages, those beside it.
    fn try_plans(&self, r: &mut Random, plans: &[Plan], tried: &mut Tried) -> Result<(), String> {
        for plan in plans {
            if self.compare(plan, tried)?.is_some_and(|broken| broken.is_empty()) {
                self.try_beside(r, plan, tried)?;
            }
        }
        Ok(())
    }

    fn try_beside(&self, r: &mut Random, plan: &Plan, tried: &mut Tried) -> Result<(), String> {
        let on_bounds = self.on_bounds(plan);
        for &v in &on_bounds {
            let Some(walk) = Planner::new(&self.network).walk_that_moves(r, Bounded::VirtualStorage(v)) else { continue };
            let alone = self.try_moved(plan, &walk, &units(), tried)?;
            alone.iter().filter(|v| on_bounds.contains(v)).for_each(|&v| tried.a_unit_beside.count(self.storage(v)));
            let alone = self.try_moved(plan, &walk, &ones(), tried)?;
            alone.iter().filter(|v| on_bounds.contains(v)).for_each(|&v| tried.one_beside.count(self.storage(v)));
        }
        Ok(())
    }

    /// Tries the plan with each amount more along a walk. Of each that a virtual storage alone forbids, the virtual storage.
    fn try_moved(&self, plan: &Plan, walk: &[usize], amounts: &[Whole], tried: &mut Tried) -> Result<Vec<usize>, String> {
        let mut alone = Vec::new();
        for moved in amounts.iter().filter_map(|more| pushed(plan, walk, more)) {
            if let Some(&[Rule::Interval(Bounded::VirtualStorage(v))]) = self.compare(&moved, tried)?.as_deref() {
                alone.push(v);
            }
        }
        Ok(alone)
    }
}

/// A case; of the networks at the ceilings, which take longest, one in eight.
pub fn case(seed: u64, index: u64) -> Option<Case> {
    let left_out = generate::kind(seed, index) == "ceiling" && !index.is_multiple_of(8);
    (!left_out).then(|| generate::case(seed, index))
}

/// Tries a case as generated, after each of its steps once one was accepted: a refused one changes neither side. An error is a case file whose comment
/// says on which plan the sides differ.
pub fn try_generated(seed: u64, index: u64, tried: &mut Tried) -> Result<(), String> {
    let Some(case) = case(seed, index) else { return Ok(()) };
    let Ok(file) = NetworkFile::read(&case.network) else { return Ok(()) };
    if !factors_are_in_1024ths(&file) {
        return Ok(());
    }
    let Ok(mut reference) = Reference::build(&case.network, case.sentinel) else { return Ok(()) };
    let (columns_of_edges, r, mut accepted) = (reference.columns_of_edges(), &mut Random::of_case(!seed, index), None);
    for (k, step) in case.steps.iter().enumerate() {
        if reference.step(step).is_ok() {
            accepted = Some(step);
            tried.start_programme();
        }
        let Some(accepted) = accepted else { continue };
        let network = NetworkSide::new(&file, case.sentinel, accepted);
        let plans = Planner::new(&network).plans(r);
        let (programme, columns_of_edges) = (reference.programme(), &columns_of_edges[..]);
        let sides = Sides { network, programme, columns_of_edges, sentinel: case.sentinel };
        let tell = |e| case_file::write(&case, &format!("seed {seed}, index {index}, step {k}: {e}"));
        sides.try_plans(r, &plans, tried).map_err(tell)?;
    }
    if accepted.is_some() {
        tried.count_network(&file, &columns_of_edges, reference.unions());
    }
    Ok(())
}

/// A case whose network and last step were made to fit a plan, with the programme after its steps.
pub struct FittedCase {
    name: String,
    case: Case,
    network: NetworkFile,
    plan: Plan,
    programme: Programme,
    columns_of_edges: Vec<usize>,
    unions: Unions,
    /// For the plans around the fitted one.
    seed: u64,
}

impl FittedCase {
    /// None if the case is left out, or its network is refused as generated or as changed.
    pub fn new(seed: u64, index: u64) -> Option<Self> {
        let mut case = case(seed, index)?;
        let file = NetworkFile::read(&case.network).ok().filter(|file| file.check().is_ok())?;
        let r = &mut Random::of_case(!seed, index);
        let Fitted { network, step, plan } = fitted(r, file);
        assert!(factors_are_in_1024ths(&network));
        case.network = network_records(&network).concat();
        case.steps.push(step_records(&step).concat());
        let mut reference = Reference::build(&case.network, case.sentinel).ok()?;
        let answer = case.steps.iter().map(|step| reference.step(step)).last();
        assert_eq!(answer, Some(Ok(())), "seed {seed}, index {index}: the step that fits");
        let (programme, columns_of_edges) = (reference.programme().clone(), reference.columns_of_edges());
        let name = format!("seed {seed}, index {index}, fitted");
        let unions = reference.unions();
        Some(Self { name, case, network, plan, programme, columns_of_edges, unions, seed: r.bits() })
    }

    /// Tries the plan and others around it. An error is a case file, as of `try_generated`.
    pub fn try_plans(&self, tried: &mut Tried) -> Result<(), String> {
        tried.count_network(&self.network, &self.columns_of_edges, self.unions);
        self.compare(&self.programme, &self.columns_of_edges, tried)
            .map_err(|e| case_file::write(&self.case, &format!("{}: {e}", self.name)))
    }

    /// Whether the same plans tell that the programme, or the columns of the edges, have a fault.
    pub fn finds(&self, fault: impl Fn(&NetworkFile, &mut Programme, &mut [usize])) -> bool {
        let (mut programme, mut columns_of_edges) = (self.programme.clone(), self.columns_of_edges.clone());
        fault(&self.network, &mut programme, &mut columns_of_edges);
        self.compare(&programme, &columns_of_edges, &mut Tried::default()).is_err()
    }

    fn compare(&self, programme: &Programme, columns_of_edges: &[usize], tried: &mut Tried) -> Result<(), String> {
        let (sentinel, step) = (self.case.sentinel, &self.case.steps[self.case.steps.len() - 1]);
        let network = NetworkSide::new(&self.network, sentinel, step);
        tried.start_programme();
        tried.fitted += 1;
        tried.fitted_allowed += network.allows(&self.plan) as usize;
        let r = &mut Random::new(self.seed);
        let plans = Planner::new(&network).around(r, &self.plan);
        Sides { network, programme, columns_of_edges, sentinel }.try_plans(r, &plans, tried)
    }
}
