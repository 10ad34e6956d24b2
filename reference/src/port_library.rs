//! The port through its static library: builds with both sentinels, steps, rows read by their own call. Every call is looked at for what it
//! writes and does not write, and each case has faults of a calling program of its own: 16 to 18.
use crate::flow_costs::Costs;
use crate::lent::{self, Kept};
use crate::port::{Answer, Port};
use crate::programme::{Column, Programme, Row};
use crate::random::Random;
use crate::store_shape::{COUNTS, Counts, EDGES, FLOW_ORDER, MAKERS, NODES, VIRTUAL_STORAGES, misshapen};
use crate::{Maker, NetworkFile, Refusal, Sentinel, flow_order_faults, maker_faults, step_file};
use pywr::{BUILD_NUMBERS, BUILD_WORDS, STEP_WORK, Store};

pub struct Library {
    store: Store,
    /// The network that the store was built of.
    file: NetworkFile,
    random: Random,
    /// Whether the rows are still to be read one by one: a step leaves their columns.
    fresh: bool,
    /// How often 16, 17 and 18 came, and how often a damaged store was still well shaped.
    pub short: u64,
    pub misshapen: u64,
    pub no_row: u64,
    pub damaged_well: u64,
    /// How often each fault in a maker was tried, and in the table of the edges in flow order.
    pub maker_faults: maker_faults::Tried,
    pub flow_order_faults: flow_order_faults::Tried,
}

type Checked = Result<(), String>;

fn require(holds: bool, what: impl Into<String>) -> Checked {
    if holds { Ok(()) } else { Err(what.into()) }
}

fn refusal(r: pywr::Refusal) -> Refusal {
    Refusal::new(r.number as u8, r.place as usize)
}

impl Library {
    pub fn new() -> Self {
        Self {
            store: Store::new(),
            file: NetworkFile::default(),
            random: Random::new(0),
            fresh: false,
            short: 0,
            misshapen: 0,
            no_row: 0,
            damaged_well: 0,
            maker_faults: maker_faults::Tried::default(),
            flow_order_faults: flow_order_faults::Tried::default(),
        }
    }

    pub fn store(&self) -> &Store {
        &self.store
    }

    fn require_refusal(answer: Result<(), pywr::Refusal>, number: u64, place: u64) -> Checked {
        require(
            answer == Err(pywr::Refusal { number, place }),
            format!("{number} at {place} is due, the port answers {answer:?}"),
        )
    }

    /// One run of the build's eleven is short: 16, and nothing is touched.
    fn short_build(&mut self, network: &[u8], sentinel: pywr::Sentinel) -> Checked {
        let r = &mut self.random;
        let (mut words, mut numbers) = (lent::words(r, BUILD_WORDS), lent::doubles(r, BUILD_NUMBERS));
        let mut store = self.store.clone();
        let k = r.below(11);
        lent::shorten(r, k, &mut store, &mut words, &mut numbers, [BUILD_NUMBERS, BUILD_WORDS]);
        let old = (store.clone(), words.clone(), numbers.clone());
        let answer = store.build(network, sentinel, &mut words, &mut numbers);
        self.short += 1;
        Self::require_refusal(answer, 16, 0)?;
        require(words == old.1 && lent::same_doubles(&numbers, &old.2), "16 touches the work area")?;
        lent::changed(&old.0, &store).map_err(|e| format!("16: {e}"))
    }

    /// The same of the step's ten, and of reading a row.
    fn short_step(&mut self, step: &[u8]) -> Checked {
        let r = &mut self.random;
        let mut work = lent::doubles(r, STEP_WORK);
        let mut store = self.store.clone();
        let k = r.below(10);
        lent::shorten(r, k, &mut store, &mut Vec::new(), &mut work, [STEP_WORK, 1]);
        let old = (store.clone(), work.clone());
        let answer = store.step(step, &mut work);
        self.short += 1;
        Self::require_refusal(answer, 16, 0)?;
        require(lent::same_doubles(&work, &old.1), "16 touches the work area")?;
        lent::changed(&old.0, &store).map_err(|e| format!("16: {e}"))?;
        if k < 9 {
            self.short += 1;
            let (start, length, answer) = store.row_part(self.random.below(3));
            require(start == 0 && length == 0, "16 with a part")?;
            Self::require_refusal(answer, 16, 0)?;
        }
        Ok(())
    }

    /// A word of the store's shape, row starts or columns is changed: 17 exactly where documents 01 and 02 say so.
    fn damaged(&mut self, step: &[u8]) -> Checked {
        let mut store = self.store.clone();
        // Every fourth fault is in a maker, every fourth in the edges in flow order.
        let of_table = self.random.below(4);
        match of_table {
            0 => maker_faults::write(&mut self.random, &mut store, &mut self.maker_faults),
            1 => flow_order_faults::write(&mut self.random, &mut store, &mut self.flow_order_faults),
            _ => damage(&mut self.random, &mut store),
        }
        let due = misshapen(&store);
        let old = store.clone();
        let part = store.row_part(0);
        let mut work = lent::doubles(&mut self.random, STEP_WORK);
        let answer = store.step(step, &mut work);
        require(lent::zero_doubles(&work), "the work area is not zero after a step on a damaged store")?;
        if answer.is_err() {
            lent::changed(&old, &store).map_err(|e| format!("refused on a damaged store: {e}"))?;
        }
        require(store.shape == old.shape, "a step on a damaged store writes its shape")?;
        if !due {
            self.damaged_well += 1;
            if of_table == 1 && answer.is_ok() {
                self.check_costs_by_table(&store, step)?;
            }
            require(
                answer.is_ok_and(|()| true) || answer != Err(pywr::Refusal { number: 17, place: 0 }),
                "17 on a well shaped store",
            )?;
            return require(part.2 != Err(pywr::Refusal { number: 17, place: 0 }), "17 for a row of a well shaped store");
        }
        self.misshapen += 2;
        Self::require_refusal(part.2, 17, 0)?;
        require(part.0 == 0 && part.1 == 0, "17 with a part")?;
        Self::require_refusal(answer, 17, 0)
    }

    /// A step adds the edges' costs in the order that stands in the store, whatever it is.
    fn check_costs_by_table(&self, stepped: &Store, step: &[u8]) -> Checked {
        let (_, state) = step_file::read(&self.file, step).map_err(|r| format!("accepted, the reference answers {r}"))?;
        let (costs, counts) = (Costs { file: &self.file, state: &state }, Counts::of(stepped));
        let mut due = vec![0.0; counts.columns()];
        for &edge in &stepped.shape[FLOW_ORDER..][..counts.edges] {
            due[stepped.shape[EDGES + 3 * edge as usize + 2] as usize] += costs.of_edge(edge as usize);
        }
        require(stepped.col_obj_coef[..due.len()] == due, "a step does not add costs in the order that stands in the store")
    }

    fn no_row(&mut self) -> Checked {
        let count = self.store.row_count();
        for row in [count, count + 1 + self.random.below(70_000), usize::MAX] {
            self.no_row += 1;
            let (start, length, answer) = self.store.row_part(row);
            require(start == 0 && length == 0, "18 with a part")?;
            Self::require_refusal(answer, 18, row as u64)?;
        }
        Ok(())
    }

    /// What an accepted build left: the counts and tables of `shape`, and beyond the counts what was there before. The network's records.
    fn check_built(&self, old: &Store, network: &[u8], sentinel: Sentinel) -> Result<NetworkFile, String> {
        let counts = Counts::of(&self.store);
        let file = NetworkFile::read(network).map_err(|r| format!("the port accepts what the reference refuses: {r}"))?;
        require(counts.sentinel == (sentinel == Sentinel::LargestFinite) as usize, "the sentinel kept is another")?;
        require(!misshapen(&self.store), "the store is misshapen after a build")?;
        let found = [counts.nodes, counts.edges, counts.aggregates, counts.virtual_storages];
        let due = [file.nodes.len(), file.edges.len(), file.aggregates.len(), file.virtual_storages.len()];
        require(found == due, format!("counts {found:?}, {due:?} are due"))?;
        let shape = &self.store.shape;
        for (node, e) in file.nodes.iter().zip(shape[NODES..].chunks(2)) {
            let due = [node.kind as u16, node.constant.is_some() as u16];
            require(e == due, format!("node words {e:?}, {due:?} are due"))?;
        }
        for (edge, e) in file.edges.iter().zip(shape[EDGES..].chunks(3)) {
            require(e[0] as usize == edge.0 && e[1] as usize == edge.1, format!("edge words {e:?}, the edge is {edge:?}"))?;
        }
        for (storage, e) in file.virtual_storages.iter().zip(shape[VIRTUAL_STORAGES..].chunks(6)) {
            let dates = storage.period.unwrap_or_default().map(u16::from);
            let due = [storage.period.is_some() as u16, dates[0], dates[1], dates[2], dates[3]];
            require(e[1..] == due, format!("virtual storage words {e:?}, {due:?} are due"))?;
        }
        let kept = Kept {
            col_bounds: counts.columns(),
            costs: counts.columns(),
            row_bounds: counts.rows(),
            elements: counts.elements,
            columns: counts.elements,
            row_starts: counts.rows() + 1,
            tables: Some(counts),
        };
        lent::kept_from(old, &self.store, &kept)?;
        Ok(file)
    }

    /// What an accepted step left: costs, and the varying rows' bounds and elements, are all that it may write.
    fn check_stepped(&self, old: &Store) -> Checked {
        let counts = Counts::of(&self.store);
        let kept = Kept {
            costs: counts.columns(),
            row_bounds: counts.varying,
            elements: self.store.row_starts[counts.varying] as usize,
            ..Kept::default()
        };
        lent::kept_from(old, &self.store, &kept)
    }

    /// A row's part as the call answers it; all rows of a fresh build, a few after a step.
    fn check_parts(&mut self) -> Checked {
        let rows = self.store.row_count();
        let asked: Vec<usize> =
            if self.fresh { (0..rows).collect() } else { (0..2).map(|_| self.random.below(rows.max(1))).collect() };
        for row in asked.into_iter().filter(|&row| row < rows) {
            let (start, length, answer) = self.store.row_part(row);
            let due = [self.store.row_starts[row] as usize, self.store.row_starts[row + 1] as usize];
            require(answer.is_ok(), format!("row {row}: {answer:?}"))?;
            require([start, start + length] == due, format!("row {row}: part {start} of length {length}, {due:?} are due"))?;
        }
        self.fresh = false;
        Ok(())
    }
}

fn damage(r: &mut Random, store: &mut Store) {
    let counts = Counts::of(store);
    let value = |r: &mut Random, old: u32, most: u32| match r.below(5) {
        0 => old.wrapping_add(1),
        1 => old.wrapping_sub(1),
        2 => r.below(8) as u32,
        3 => *r.pick(&[128, 256, 512, 640, 1024, 4096, 4352, 65535]) + r.below(3) as u32,
        _ => r.bits() as u32 & most,
    };
    match r.below(8) {
        0 => {
            let at = r.below(counts.rows() + 1);
            store.row_starts[at] = value(r, store.row_starts[at], u32::MAX);
        }
        1 if counts.elements > 0 => {
            let at = r.below(counts.elements);
            store.columns[at] = value(r, store.columns[at] as u32, 65535) as u16;
        }
        2 if counts.elements > 1 => {
            let at = r.below(counts.elements - 1);
            store.columns.swap(at, at + 1);
        }
        3 => {
            let at = r.below(COUNTS);
            store.shape[at] = value(r, store.shape[at] as u32, 65535) as u16;
        }
        _ => {
            let (start, length) = *r.pick(&counts.tables());
            let at = start + r.below(length.max(1));
            store.shape[at] = value(r, store.shape[at] as u32, 65535) as u16;
        }
    }
}

impl Default for Library {
    fn default() -> Self {
        Self::new()
    }
}

impl Port for Library {
    fn sentinel(&self, wanted: Sentinel) -> Sentinel {
        wanted
    }

    fn has_steps(&self) -> bool {
        true
    }

    fn build(&mut self, network: &[u8], sentinel: Sentinel) -> Answer {
        let picked = match sentinel {
            Sentinel::Infinity => pywr::Sentinel::Infinity,
            Sentinel::LargestFinite => pywr::Sentinel::LargestFinite,
        };
        // The same for the same case, so that a case that was written out is replayed.
        self.random = Random::new(network.iter().fold(0, |h, &b| (h ^ b as u64).wrapping_mul(0x0100_0000_01b3)));
        self.store = lent::store(&mut self.random);
        self.short_build(network, picked)?;
        let old = self.store.clone();
        let (mut words, mut numbers) =
            (lent::words(&mut self.random, BUILD_WORDS), lent::doubles(&mut self.random, BUILD_NUMBERS));
        let answer = self.store.build(network, picked, &mut words, &mut numbers);
        require(lent::zero_words(&words) && lent::zero_doubles(&numbers), "the work area is not zero after a build")?;
        match answer {
            Ok(()) => self.file = self.check_built(&old, network, sentinel)?,
            Err(_) => lent::changed(&old, &self.store).map_err(|e| format!("refused, but {e}"))?,
        }
        self.fresh = true;
        if answer.is_ok() {
            self.no_row()?;
        }
        Ok(answer.map_err(refusal))
    }

    fn step(&mut self, step: &[u8]) -> Answer {
        self.short_step(step)?;
        self.damaged(step)?;
        let old = self.store.clone();
        let mut work = lent::doubles(&mut self.random, STEP_WORK);
        let answer = self.store.step(step, &mut work);
        require(lent::zero_doubles(&work), "the work area is not zero after a step")?;
        match answer {
            Ok(()) => self.check_stepped(&old)?,
            Err(_) => lent::changed(&old, &self.store).map_err(|e| format!("refused, but {e}"))?,
        }
        Ok(answer.map_err(refusal))
    }

    fn programme(&mut self) -> Result<Programme, String> {
        self.check_parts()?;
        let (s, counts) = (&self.store, Counts::of(&self.store));
        let columns = (0..counts.columns()).map(|c| Column {
            integer: c >= counts.edge_columns,
            lower: s.col_lower[c],
            upper: s.col_upper[c],
            cost: s.col_obj_coef[c],
        });
        let rows = (0..counts.rows()).map(|r| {
            let part = s.row_starts[r] as usize..s.row_starts[r + 1] as usize;
            let columns = s.columns[part.clone()].iter().map(|&c| c as usize);
            Row {
                varying: r < counts.varying,
                lower: s.row_lower[r],
                upper: s.row_upper[r],
                elements: columns.zip(s.elements[part].iter().copied()).collect(),
            }
        });
        let makers = s.shape[MAKERS..MAKERS + 3 * counts.rows()].chunks(3);
        let makers = makers.map(|e| Maker { kind: e[0], index: e[1], shared_by: e[2] });
        Ok(Programme { columns: columns.collect(), rows: rows.collect(), makers: makers.collect() })
    }

    fn columns_of_edges(&self) -> Option<Vec<usize>> {
        let counts = Counts::of(&self.store);
        Some(self.store.shape[EDGES..EDGES + 3 * counts.edges].chunks(3).map(|e| e[2] as usize).collect())
    }

    fn flow_order(&self) -> Option<Vec<usize>> {
        let counts = Counts::of(&self.store);
        Some(self.store.shape[FLOW_ORDER..FLOW_ORDER + counts.edges].iter().map(|&edge| edge as usize).collect())
    }

    fn report(&self) -> Option<String> {
        let Self { short, misshapen, no_row, damaged_well, .. } = self;
        let (makers, flow_order) = (self.maker_faults.text(), self.flow_order_faults.text());
        Some(format!(
            "faults of the caller: 16: {short}, 17: {misshapen}, 18: {no_row}; damaged stores still well shaped {damaged_well}\n{makers}\n{flow_order}"
        ))
    }

    fn untried(&self) -> Option<String> {
        let untried = [self.maker_faults.untried(), self.flow_order_faults.untried()];
        untried.into_iter().flatten().reduce(|one, other| format!("{one}; {other}"))
    }
}
