//! Runs the port beside the reference on one case.
use crate::columns::{self, Path};
use crate::flow_costs::CostCounts;
use crate::generate::Case;
use crate::port::{Answer, Port};
use crate::reference::{InBoth, Unions};
use crate::{LARGEST, RETIRED, Reference, Refusal, Sentinel};

/// How often each answer came: at 0 accepted, at n refused with number n.
#[derive(Debug, Clone, Copy, Default)]
pub struct Answers([u64; LARGEST + 1]);

impl Answers {
    pub fn count(&mut self, answer: Result<(), Refusal>) {
        self.0[answer.map_or_else(|r| r.number as usize, |()| 0)] += 1;
    }

    pub fn add(&mut self, others: &Self) {
        self.0.iter_mut().zip(others.0).for_each(|(count, other)| *count += other);
    }

    /// How often `number` came, 0 for accepted.
    pub fn of(&self, number: usize) -> u64 {
        self.0[number]
    }

    pub fn total(&self) -> u64 {
        self.0.iter().sum()
    }

    /// `accepted` and the refusals reached, each number with its count.
    pub fn text(&self) -> String {
        let refused = (1..self.0.len()).filter(|&n| self.0[n] > 0).map(|n| format!(", {n}: {}", self.0[n]));
        format!("accepted {}{}", self.0[0], refused.collect::<String>())
    }
}

/// How many networks reached the columns, those refused with 11 too.
#[derive(Debug, Clone, Copy, Default)]
pub struct ByUnions {
    pub with: u64,
    pub without: u64,
    /// With a union, and accepted; without it the programme would be over a ceiling.
    pub under_by_unions: u64,
}

impl ByUnions {
    fn count(&mut self, unions: Unions, accepted: bool) {
        let counts = if unions.count > 0 { &mut self.with } else { &mut self.without };
        *counts += 1;
        self.under_by_unions += (accepted && unions.over_without) as u64;
    }
}

/// How many networks that reached the columns have a closed ring, and a column whose flow order is not its edge order.
#[derive(Debug, Clone, Copy, Default)]
pub struct ByPaths {
    pub closed: u64,
    pub keyed_otherwise: u64,
}

impl ByPaths {
    fn count(&mut self, paths: &[Path]) {
        self.closed += paths.iter().any(|path| path.closed) as u64;
        self.keyed_otherwise += !paths.iter().all(Path::is_in_edge_order) as u64;
    }
}

/// What was reached, and how much of it was compared with the port.
#[derive(Debug, Default)]
pub struct Tally {
    pub builds: Answers,
    pub steps: Answers,
    pub builds_compared: u64,
    pub steps_compared: u64,
    pub by_unions: ByUnions,
    pub by_paths: ByPaths,
    pub costs: CostCounts,
    pub in_both: InBoth,
}

impl Tally {
    /// The reference's build of a case, counted.
    fn build(&mut self, case: &Case, sentinel: Sentinel) -> Result<Reference, Refusal> {
        let built = Reference::build_of_any_size(&case.network, sentinel);
        let unions = built.as_ref().map(Reference::unions).ok();
        built.iter().for_each(|built| self.by_paths.count(built.paths()));
        let build = built.and_then(Reference::within_ceilings);
        if let Some(unions) = unions {
            self.by_unions.count(unions, build.is_ok());
        }
        self.builds.count(answer(&build));
        build
    }

    /// Counts the Rust's answer to a step. The retired number is an error, with a port or without.
    pub fn count_step(&mut self, answer: Result<(), Refusal>) -> Result<(), String> {
        self.steps.count(answer);
        match answer {
            Err(refusal) if refusal.number == RETIRED => Err(format!("the Rust answers {refusal}, which is retired")),
            _ => Ok(()),
        }
    }

    /// Counts what the altered and the unaltered Rust both ran of a case, and the costs that were looked at.
    fn count_run(&mut self, reference: &Reference) {
        let InBoth { builds, steps, costs, costs_unlike } = reference.in_both();
        let both = &mut self.in_both;
        for (count, more) in [
            (&mut both.builds, builds),
            (&mut both.steps, steps),
            (&mut both.costs, costs),
            (&mut both.costs_unlike, costs_unlike),
        ] {
            *count += more;
        }
        self.costs += reference.cost_counts();
    }

    /// How often the Rust reached the retired number.
    pub fn retired(&self) -> u64 {
        self.steps.of(RETIRED as usize)
    }
}

/// Builds the case and takes its steps, with the port if there is one. An error says what differs.
pub fn compare(case: &Case, port: &mut Option<Box<dyn Port>>, tally: &mut Tally) -> Result<(), String> {
    let Some(port) = port.as_deref_mut() else {
        return run_alone(case, case.sentinel, tally);
    };
    let sentinel = port.sentinel(case.sentinel);
    let build = tally.build(case, sentinel);
    tally.builds_compared += 1;
    same_answer(answer(&build), port.build(&case.network, sentinel)).map_err(|e| format!("build: {e}"))?;
    match build {
        Ok(mut reference) => {
            port.same_programme(&reference).map_err(|e| format!("build: {e}"))?;
            if port.columns_of_edges().is_some_and(|columns| columns != reference.columns_of_edges()) {
                return Err("build: the columns of edges differ".into());
            }
            if port.flow_order().is_some_and(|order| order != columns::flow_order(reference.paths())) {
                return Err("build: the edges in flow order differ".into());
            }
            compare_steps(case, &mut reference, port, tally)?;
            tally.count_run(&reference);
            Ok(())
        }
        Err(_) => Ok(()),
    }
}

/// The programme is compared after each step, refused ones too.
fn compare_steps(case: &Case, reference: &mut Reference, port: &mut dyn Port, tally: &mut Tally) -> Result<(), String> {
    for (k, step) in case.steps.iter().enumerate() {
        let answer = reference.step(step);
        tally.count_step(answer).map_err(|e| format!("step {k}: {e}"))?;
        if port.has_steps() {
            tally.steps_compared += 1;
            let same = same_answer(answer, port.step(step)).and_then(|()| port.same_programme(reference));
            same.map_err(|e| format!("step {k}: {e}"))?;
        }
    }
    Ok(())
}

fn run_alone(case: &Case, sentinel: Sentinel, tally: &mut Tally) -> Result<(), String> {
    if let Ok(mut reference) = tally.build(case, sentinel) {
        for (k, step) in case.steps.iter().enumerate() {
            tally.count_step(reference.step(step)).map_err(|e| format!("step {k}: {e}"))?;
        }
        tally.count_run(&reference);
    }
    Ok(())
}

fn answer(build: &Result<Reference, Refusal>) -> Result<(), Refusal> {
    build.as_ref().map(|_| ()).map_err(|refusal| *refusal)
}

fn same_answer(reference: Result<(), Refusal>, port: Answer) -> Result<(), String> {
    let text = |answer: Result<(), Refusal>| answer.map_or_else(|r| r.to_string(), |()| "accepted".into());
    let port = port?;
    if reference == port { Ok(()) } else { Err(format!("the Rust answers {}, the port {}", text(reference), text(port))) }
}
