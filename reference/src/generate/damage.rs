//! Damaged copies of a file that is given record by record, and files cut around every boundary.
use crate::random::Random;

/// One or two slips: a byte or a field changed, a record moved, lost or doubled, bytes added or missing.
pub fn damaged(r: &mut Random, mut records: Vec<Vec<u8>>) -> Vec<u8> {
    for _ in 0..r.between(1, 2) {
        damage(r, &mut records);
    }
    records.concat()
}

fn damage(r: &mut Random, records: &mut Vec<Vec<u8>>) {
    if records.is_empty() {
        return records.push(vec![0x4e]);
    }
    let at = r.below(records.len());
    let other = r.below(records.len());
    let length = records[at].len();
    match r.below(12) {
        0 => drop(records.remove(at)),
        1 => records.insert(other, records[at].clone()),
        2 => records.swap(at, other),
        3 if length > 0 => records[at].truncate(r.below(length)),
        4 if length > 0 => drop(records[at].remove(r.below(length))),
        5 => records[at].insert(r.below(length + 1), r.bits() as u8),
        6 if length >= 2 => {
            let marks: [&[u8; 2]; 10] = [b"ND", b"ED", b"AG", b"VS", b"ST", b"NB", b"GB", b"VB", b"nd", b"N\0"];
            let mark = **r.pick(&marks);
            records[at][..2].copy_from_slice(&mark);
        }
        7 if length >= 10 => put_double(r, &mut records[at]),
        8 if length > 2 => {
            let byte = r.between(2, (length - 1).min(12));
            records[at][byte] = *r.pick(&[0, 1, 2, 3, 4, 12, 13, 16, 17, 31, 32, 64, 65, 255]);
        }
        9 => {
            let tail: Vec<u8> = (0..r.between(1, 4)).map(|_| r.bits() as u8).collect();
            records.push(tail);
        }
        _ if length > 0 => records[at][r.below(length)] ^= 1 << r.below(8),
        _ => {}
    }
}

/// Puts a double at the limits over a field of a record, or over half of two.
fn put_double(r: &mut Random, record: &mut [u8]) {
    let limits = [
        f64::NAN,
        -f64::NAN,
        f64::from_bits(0x7ff0_0000_0000_0001),
        f64::INFINITY,
        f64::NEG_INFINITY,
        -0.0,
        1e12,
        1e12_f64.next_up(),
        -1e12,
        -(1e12_f64.next_up()),
        1e13,
        (1.0_f64 / 1024.0).next_down(),
        366.0_f64.next_up(),
        0.0,
        367.0,
    ];
    let starts: Vec<usize> = (2..=record.len() - 8).filter(|s| [0, 2, 4].contains(&(s % 8)) || r.chance(20)).collect();
    let start = *r.pick(&starts);
    record[start..start + 8].copy_from_slice(&r.pick(&limits).to_le_bytes());
}

/// A file that ends at, before or behind a record's end, or anywhere.
pub fn cut(r: &mut Random, records: Vec<Vec<u8>>) -> Vec<u8> {
    let count = r.below(records.len() + 1);
    let boundary: usize = records[..count].iter().map(Vec::len).sum();
    let mut file = records.concat();
    let length = if r.chance(50) { r.below(file.len() + 1) } else { (boundary + r.below(5)).saturating_sub(2) };
    if length > file.len() {
        let more = *r.pick(b"NEAVS\0");
        file.resize(length, more);
    }
    file.truncate(length);
    file
}

/// A few bytes of no meaning.
pub fn bytes(r: &mut Random) -> Vec<u8> {
    let length = r.below(40);
    let alphabet = *r.pick(&[&b"NDEAGVS\0\x01"[..], &b"ND\0\0"[..]]);
    (0..length).map(|_| if r.chance(20) { r.bits() as u8 } else { *r.pick(alphabet) }).collect()
}
