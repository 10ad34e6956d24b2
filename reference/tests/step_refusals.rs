//! Refusals 12 to 14 and 21 of a step file, their order, and the programme after them; and the Rust's own 15, which no step file reaches.
mod records;

use pywr_core::civil::DateTime;
use pywr_core::state::{NodeNumbers, State, VirtualStorageNumbers};
use pywr_core::timestep::Timestep;
use pywr_reference::comparison::Tally;
use pywr_reference::reference::refusal;
use pywr_reference::solver::{Altered, Solver};
use pywr_reference::{NetworkFile, RETIRED, Reference, Refusal, Sentinel};
use records::*;

fn built(records: &[Vec<u8>]) -> Reference {
    Reference::build(&records.concat(), Sentinel::Infinity).unwrap_or_else(|r| panic!("refused: {r}"))
}

fn answer(records: &[Vec<u8>], step: &[Vec<u8>]) -> Result<(), Refusal> {
    built(records).step(&step.concat())
}

fn refused(records: &[Vec<u8>], step: &[Vec<u8>], number: u8, place: usize) {
    assert_eq!(answer(records, step), Err(Refusal::new(number, place)));
}

fn accepted(records: &[Vec<u8>], step: &[Vec<u8>]) {
    assert_eq!(answer(records, step), Ok(()));
}

fn day() -> Vec<u8> {
    st(6, 1, 1.0)
}

fn free() -> Vec<u8> {
    nb(0.0, 0.0, f64::INFINITY, f64::NAN)
}

#[test]
fn short_wrongly_marked_or_left_over() {
    let network = [pair(), plain(&[&[0]]), vs(None, &[(0, 1.0)])];
    let step = [day(), free(), free(), gb(0.0, 1.0), vb(0.0, 1.0, 0.5)];
    accepted(&network, &step);
    let whole = step.concat();
    let starts = [0, 12, 46, 80, 98];
    for length in 0..whole.len() {
        let record = *starts.iter().rev().find(|s| **s <= length).unwrap();
        refused(&network, &[whole[..length].to_vec()], 12, record);
    }
    refused(&network, &[whole.clone(), vec![0]], 12, whole.len());
    for record in starts {
        let mut wrong = whole.clone();
        wrong[record + 1] = b'X';
        refused(&network, &[wrong], 12, record);
    }
    // Bytes left over come before 14.
    refused(&[pair()], &[day(), nb(0.0, 3.0, 2.0, 0.0), free(), vec![0]], 12, 80);
}

#[test]
fn values_of_the_date_and_days() {
    let with = |month, d, days| [st(month, d, days), free(), free()];
    for (month, d) in [(1, 31), (2, 29), (4, 30), (12, 31)] {
        accepted(&[pair()], &with(month, d, 1.0));
        refused(&[pair()], &with(month, d + 1, 1.0), 13, 0);
    }
    refused(&[pair()], &[b"ST\x00".to_vec()], 13, 0);
    refused(&[pair()], &[b"ST\x0d".to_vec()], 13, 0);
    refused(&[pair()], &[b"ST\x01\x00".to_vec()], 13, 0);
    accepted(&[pair()], &with(1, 1, 1.0 / 1024.0));
    refused(&[pair()], &with(1, 1, (1.0_f64 / 1024.0).next_down()), 13, 0);
    accepted(&[pair()], &with(1, 1, 366.0));
    refused(&[pair()], &with(1, 1, 366.0_f64.next_up()), 13, 0);
    refused(&[pair()], &with(1, 1, f64::NAN), 13, 0);
}

#[test]
fn values_of_nodes() {
    let network = [nd(INPUT), constant(OUTPUT, 0.0, 1.0), nd(STORAGE), ed(0, 1)];
    let with = |k: usize, numbers: [f64; 4]| {
        let mut step = [day(), free(), nb(1.0, f64::NAN, f64::NAN, f64::NAN), nb(0.0, 0.0, 0.0, 0.0)];
        step[1 + k] = nb(numbers[0], numbers[1], numbers[2], numbers[3]);
        step
    };
    let (nan, inf, over) = (f64::NAN, f64::INFINITY, 1e12_f64.next_up());
    accepted(&network, &with(0, [1e12, -inf, inf, nan]));
    accepted(&network, &with(2, [-1e12, -1e12, 1e12, 1e12]));
    for numbers in [[nan, 0.0, 0.0, 0.0], [over, 0.0, 0.0, 0.0], [0.0, nan, 0.0, 0.0], [0.0, 0.0, nan, 0.0]] {
        refused(&network, &with(0, numbers), 13, 12);
    }
    for cost in [nan, inf, -over] {
        refused(&network, &with(1, [cost, 0.0, 0.0, 0.0]), 13, 46);
    }
    for i in 0..4 {
        for value in [nan, inf, over, -over] {
            let mut numbers = [0.0; 4];
            numbers[i] = value;
            refused(&network, &with(2, numbers), 13, 80);
        }
    }
}

#[test]
fn values_of_aggregates_and_virtual_storages() {
    let network = [pair(), plain(&[&[0]]), vs(Some([1, 1, 1, 1]), &[(0, 1.0)])];
    let with = |g: [f64; 2], v: [f64; 3]| [day(), free(), free(), gb(g[0], g[1]), vb(v[0], v[1], v[2])];
    accepted(&network, &with([f64::INFINITY, f64::NEG_INFINITY], [1e12, -1e12, 0.0]));
    refused(&network, &with([f64::NAN, 0.0], [0.0; 3]), 13, 80);
    refused(&network, &with([0.0, f64::NAN], [0.0; 3]), 13, 80);
    // Looked at although the virtual storage is inactive on that day.
    for i in 0..3 {
        let mut numbers = [0.0; 3];
        numbers[i] = 1e12_f64.next_up();
        refused(&network, &with([0.0, 1.0], numbers), 13, 98);
    }
}

#[test]
fn lower_over_upper() {
    accepted(&[pair()], &[day(), nb(0.0, 3.0, 3.0, 0.0), free()]);
    refused(&[pair()], &[day(), nb(0.0, 3.0, 2.0, 0.0), free()], 14, 0);
    refused(&[pair()], &[day(), free(), nb(0.0, f64::INFINITY, f64::MAX, 0.0)], 14, 1);
    let storage = [nd(STORAGE), nd(OUTPUT), ed(0, 1)];
    refused(&storage, &[day(), nb(0.0, 2.0, 1.0, 0.0), free()], 14, 0);
    accepted(&storage, &[day(), nb(0.0, 2.0, 2.0, 9.0), free()]);
    // An exclusive varying node is asked too.
    refused(&[pair(), exclusive(&[&[1]], 0, 1)], &[day(), free(), nb(0.0, 1.0, 0.5, 0.0), gb(0.0, 0.0)], 14, 1);
}

/// Of a varying exclusive node a bound at or beyond either sentinel, the lower and the upper; the next double within passes.
#[test]
fn bounds_at_a_sentinel() {
    let network = [nd(INPUT), nd(OUTPUT), ed(0, 1), exclusive(&[&[1]], 0, 1)].concat();
    let (inf, max) = (f64::INFINITY, f64::MAX);
    let within = max.next_down();
    let answer = |sentinel, (lower, upper): (f64, f64)| {
        let step = [day(), free(), nb(0.0, lower, upper, 0.0), gb(0.0, 0.0)].concat();
        Reference::build(&network, sentinel).unwrap().step(&step)
    };
    let due = Err(Refusal::new(21, 1));
    for bounds in [(0.0, inf), (-inf, 0.0), (-inf, inf), (inf, inf), (-inf, -inf), (max, inf), (-inf, -max)] {
        assert_eq!([Sentinel::Infinity, Sentinel::LargestFinite].map(|s| answer(s, bounds)), [due, due], "{bounds:?}");
    }
    for bounds in [(0.0, max), (-max, 0.0), (-max, max), (max, max), (-max, -max), (within, max), (-max, -within)] {
        assert_eq!([Sentinel::Infinity, Sentinel::LargestFinite].map(|s| answer(s, bounds)), [Ok(()), due], "{bounds:?}");
    }
    for bounds in [(0.0, within), (-within, 0.0), (-within, within), (within, within), (0.0, 0.0), (-2.0, -1.0)] {
        assert_eq!([Sentinel::Infinity, Sentinel::LargestFinite].map(|s| answer(s, bounds)), [Ok(()), Ok(())], "{bounds:?}");
    }
}

/// Not of a node that no exclusive aggregate lists, nor of a constant one, whose numbers are not read; nor of a storage, whose volumes have limits.
#[test]
fn bounds_at_a_sentinel_of_other_nodes() {
    let infinite = || nb(0.0, f64::NEG_INFINITY, f64::INFINITY, 0.0);
    let inside = || nb(0.0, 0.0, 9.0, 0.0);
    accepted(&[pair(), exclusive(&[&[1]], 0, 1)], &[day(), infinite(), inside(), gb(0.0, 0.0)]);
    accepted(&[pair(), plain(&[&[0, 1]])], &[day(), infinite(), infinite(), gb(0.0, 0.0)]);
    let constant = [constant(INPUT, f64::NEG_INFINITY, f64::INFINITY), nd(OUTPUT), ed(0, 1), exclusive(&[&[0]], 0, 1)];
    accepted(&constant, &[day(), infinite(), infinite(), gb(0.0, 0.0)]);
    let storage = [nd(STORAGE), nd(OUTPUT), ed(0, 1), exclusive(&[&[0]], 0, 1)].concat();
    let step = [st(6, 1, 1.0 / 1024.0), nb(0.0, -1e12, 1e12, 1e12), infinite(), gb(0.0, 0.0)].concat();
    for sentinel in [Sentinel::Infinity, Sentinel::LargestFinite] {
        assert_eq!(Reference::build(&storage, sentinel).unwrap().step(&step), Ok(()));
    }
    refused(
        &[pair(), exclusive(&[&[1]], 0, 1), plain(&[&[0]])],
        &[day(), infinite(), infinite(), gb(0.0, 0.0), gb(0.0, 0.0)],
        21,
        1,
    );
}

/// By node, and of one node 14 before 21; the file comes first.
#[test]
fn lower_over_upper_and_bounds_at_a_sentinel() {
    let network = [nd(INPUT), nd(INPUT), nd(OUTPUT), ed(0, 2), ed(1, 2), exclusive(&[&[2, 0]], 0, 1)];
    let crossed = || nb(0.0, 3.0, 2.0, 0.0);
    let both = || nb(0.0, f64::INFINITY, 2.0, 0.0);
    let inside = || nb(0.0, 2.0, 3.0, 0.0);
    let with = |nodes: [Vec<u8>; 3]| [vec![day()], nodes.to_vec(), vec![gb(0.0, 0.0)]].concat();
    refused(&network, &with([free(), crossed(), crossed()]), 21, 0);
    refused(&network, &with([free(), inside(), crossed()]), 21, 0);
    refused(&network, &with([crossed(), free(), free()]), 14, 0);
    refused(&network, &with([inside(), crossed(), free()]), 14, 1);
    refused(&network, &with([inside(), free(), free()]), 21, 2);
    refused(&network, &with([both(), free(), free()]), 14, 0);
    refused(&network, &with([inside(), inside(), both()]), 14, 2);
    refused(&network, &[with([free(), crossed(), free()]), vec![vec![0]]].concat(), 12, 132);
    accepted(&network, &with([inside(), free(), inside()]));
}

/// Also of the coefficients that a refused step has asked for.
#[test]
fn a_step_forgets_one_refused_with_21() {
    let network = [pair(), exclusive(&[&[0, 1]], 0, 1)];
    let step = |upper: f64| [day(), nb(0.0, 0.0, upper, 0.0), nb(0.0, 1.0, 7.0, 0.0), gb(0.0, 0.0)].concat();
    let mut reference = built(&network);
    reference.step(&step(9.0)).unwrap();
    let before = reference.programme().to_string();
    assert_eq!(reference.step(&step(f64::INFINITY)), Err(Refusal::new(21, 0)));
    assert_eq!(reference.programme().to_string(), before);
    reference.step(&step(9.0)).unwrap();
    assert_eq!(reference.programme().to_string(), before);
}

#[test]
fn a_refused_step_leaves_the_programme() {
    let mut reference = built(&[pair()]);
    reference.step(&[day(), nb(7.0, 1.0, 2.0, 0.0), nb(1.0, 0.0, 9.0, 0.0)].concat()).unwrap();
    let before = reference.programme().to_string();
    for wrong in [vec![], [day(), nb(5.0, 0.0, 1.0, 0.0), nb(4.0, 9.0, 8.0, 0.0)].concat()] {
        assert!(reference.step(&wrong).is_err());
        assert_eq!(reference.programme().to_string(), before);
    }
    reference.step(&[day(), nb(0.0, 0.0, 5.0, 0.0), nb(0.0, 0.0, 9.0, 0.0)].concat()).unwrap();
    assert_ne!(reference.programme().to_string(), before);
}

/// Under and over the range, in a crossed range, at the limits of a volume and of the days, active or not, with either sentinel.
#[test]
fn no_step_file_reaches_the_retired_number() {
    let network = [pair(), vs(None, &[(0, 1.0)]), vs(Some([6, 2, 5, 31]), &[(0, 1.0)])].concat();
    let volumes = [-1e12, -1.0, -f64::MIN_POSITIVE, -0.0, 0.0, f64::MIN_POSITIVE, 1.0, 1e12];
    for sentinel in [Sentinel::Infinity, Sentinel::LargestFinite] {
        let mut reference = Reference::build(&network, sentinel).unwrap();
        for n in 0..512 {
            let [min, max, volume] = [volumes[n / 64], volumes[n / 8 % 8], volumes[n % 8]];
            for days in [1.0 / 1024.0, 1.0, 366.0] {
                let step = [st(6, 1, days), free(), free(), vb(min, max, volume), vb(min, max, volume)].concat();
                assert_eq!(reference.step(&step), Ok(()), "min {min}, max {max}, volume {volume}, days {days}");
            }
        }
    }
}

/// Days under 0, which 13 refuses of a file, reach it: the Rust's check is there, and the comparison fails where it is reached.
#[test]
fn the_rusts_own_check_is_counted_and_fails() {
    let network = NetworkFile::read(&[pair(), vs(None, &[(0, 1.0)]), vs(None, &[(0, 1.0)])].concat()).unwrap().network();
    let node = || NodeNumbers { cost: 0.0, min: 0.0, max: f64::INFINITY, volume: 0.0 };
    let storage = |max, volume| VirtualStorageNumbers { min: 0.0, max, volume };
    let virtual_storages = vec![storage(0.0, 0.0), storage(1.0, 0.5)];
    let state = State { nodes: vec![node(), node()], virtual_storages, ..State::default() };
    let mut solver = Altered::create(&network, f64::INFINITY).unwrap();
    let mut step = |days| solver.step(&network, &Timestep::new(DateTime::new(6, 1), days), &state).map_err(refusal);
    let mut tally = Tally::default();
    assert_eq!(tally.count_step(step(1.0)), Ok(()));
    let reached = step(-1.0);
    assert_eq!(reached, Err(Refusal::new(RETIRED, 1)));
    assert!(tally.count_step(reached).is_err());
    assert_eq!((tally.retired(), tally.steps.total()), (1, 2));
}
