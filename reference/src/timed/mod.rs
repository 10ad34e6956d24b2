//! The readers that the benchmark times: each file in one walk, straight into what builder.rs asks for. They decide whether a file is refused;
//! by which refusal, the ordinary readers say, which judge the port and are simple in place of quick.
pub mod network_reader;
pub mod step_reader;

/// What a number's magnitude may be at most, compared as bits: NaN is over infinity.
type Limit = u64;

const AMOUNT: Limit = 1e12_f64.to_bits();
const FLOW: Limit = f64::INFINITY.to_bits();
/// Of a number that is not looked at.
const UNREAD: Limit = u64::MAX >> 1;

fn within(x: f64, limit: Limit) -> bool {
    x.abs().to_bits() <= limit
}

fn is_mark(record: &[u8], mark: &[u8; 2]) -> bool {
    record[..2] == *mark
}

fn u16_at(record: &[u8], at: usize) -> usize {
    u16::from_le_bytes([record[at], record[at + 1]]) as usize
}

fn f64_at(record: &[u8], at: usize) -> f64 {
    f64::from_le_bytes(record[at..at + 8].try_into().unwrap())
}
