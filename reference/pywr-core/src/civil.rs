//! Stand-in for jiff's dates: a month and a day.
#[derive(Debug, Clone, Copy, PartialEq)]
pub struct Date {
    month: i8,
    day: i8,
}

impl Date {
    pub fn month(&self) -> i8 {
        self.month
    }

    pub fn day(&self) -> i8 {
        self.day
    }
}

#[derive(Debug, Clone, Copy, PartialEq)]
pub struct DateTime(Date);

impl DateTime {
    pub fn new(month: u8, day: u8) -> Self {
        Self(Date { month: month as i8, day: day as i8 })
    }

    pub fn date(&self) -> Date {
        self.0
    }
}
