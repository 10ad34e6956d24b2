//! Records written byte by byte, for the tests.
#![allow(dead_code)]

pub const INPUT: u8 = 0;
pub const OUTPUT: u8 = 1;
pub const LINK: u8 = 2;
pub const STORAGE: u8 = 3;

fn record(mark: &[u8; 2], small: &[u8], numbers: &[f64]) -> Vec<u8> {
    let numbers: Vec<u8> = numbers.iter().flat_map(|x| x.to_le_bytes()).collect();
    [mark, small, &numbers].concat()
}

pub fn nd(kind: u8) -> Vec<u8> {
    record(b"ND", &[kind, 0], &[0.0, 0.0])
}

pub fn constant(kind: u8, min: f64, max: f64) -> Vec<u8> {
    record(b"ND", &[kind, 1], &[min, max])
}

pub fn ed(from: u16, to: u16) -> Vec<u8> {
    [&b"ED"[..], &from.to_le_bytes(), &to.to_le_bytes()].concat()
}

fn aggregate(kind: u8, sets: &[&[u16]], min_active: u32, max_active: u32) -> Vec<u8> {
    let mut bytes = record(b"AG", &[kind, sets.len() as u8], &[]);
    bytes.extend(min_active.to_le_bytes());
    bytes.extend(max_active.to_le_bytes());
    for set in sets {
        bytes.push(set.len() as u8);
        bytes.extend(set.iter().flat_map(|n| n.to_le_bytes()));
    }
    bytes
}

pub fn plain(sets: &[&[u16]]) -> Vec<u8> {
    aggregate(0, sets, 0, 0)
}

pub fn exclusive(sets: &[&[u16]], min_active: u32, max_active: u32) -> Vec<u8> {
    aggregate(1, sets, min_active, max_active)
}

pub fn vs(period: Option<[u8; 4]>, nodes: &[(u16, f64)]) -> Vec<u8> {
    let dates = period.unwrap_or([0; 4]);
    let mut bytes = record(b"VS", &[&[period.is_some() as u8][..], &dates, &[nodes.len() as u8]].concat(), &[]);
    for (node, factor) in nodes {
        bytes.extend(node.to_le_bytes());
        bytes.extend(factor.to_le_bytes());
    }
    bytes
}

/// A varying input, a varying output and the edge between them.
pub fn pair() -> Vec<u8> {
    [nd(INPUT), nd(OUTPUT), ed(0, 1)].concat()
}

pub fn st(month: u8, day: u8, days: f64) -> Vec<u8> {
    record(b"ST", &[month, day], &[days])
}

pub fn nb(cost: f64, min: f64, max: f64, volume: f64) -> Vec<u8> {
    record(b"NB", &[], &[cost, min, max, volume])
}

pub fn gb(lower: f64, upper: f64) -> Vec<u8> {
    record(b"GB", &[], &[lower, upper])
}

pub fn vb(min: f64, max: f64, volume: f64) -> Vec<u8> {
    record(b"VB", &[], &[min, max, volume])
}
