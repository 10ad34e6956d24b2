//! The fields of one record, left to right. A field that the file ends in, or a value out of range, is refused at the record's offset.
use crate::Refusal;

pub struct Fields<'a> {
    file: &'a [u8],
    record: usize,
    next: usize,
    short: u8,
}

impl<'a> Fields<'a> {
    /// A record at `record`; `short` is the number of a file that ends inside it.
    pub fn new(file: &'a [u8], record: usize, short: u8) -> Self {
        Self { file, record, next: record, short }
    }

    pub fn next(&self) -> usize {
        self.next
    }

    pub fn refusal(&self, number: u8) -> Refusal {
        Refusal::new(number, self.record)
    }

    /// Refused with `number` unless `fits`.
    pub fn require(&self, fits: bool, number: u8) -> Result<(), Refusal> {
        if fits { Ok(()) } else { Err(self.refusal(number)) }
    }

    fn bytes<const N: usize>(&mut self) -> Result<[u8; N], Refusal> {
        let part = self.file.get(self.next..self.next + N).ok_or(self.refusal(self.short))?;
        self.next += N;
        Ok(part.try_into().unwrap())
    }

    pub fn mark(&mut self) -> Result<[u8; 2], Refusal> {
        self.bytes()
    }

    pub fn u8(&mut self) -> Result<u8, Refusal> {
        Ok(u8::from_le_bytes(self.bytes()?))
    }

    pub fn u16(&mut self) -> Result<u16, Refusal> {
        Ok(u16::from_le_bytes(self.bytes()?))
    }

    pub fn u32(&mut self) -> Result<u32, Refusal> {
        Ok(u32::from_le_bytes(self.bytes()?))
    }

    pub fn f64(&mut self) -> Result<f64, Refusal> {
        Ok(f64::from_le_bytes(self.bytes()?))
    }
}

/// Costs, volumes and factors: magnitude at most 1e12, so no NaN.
pub fn is_within(x: f64) -> bool {
    x.abs() <= 1e12
}
