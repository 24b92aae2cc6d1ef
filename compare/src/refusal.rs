//! Refusals: each has a cause, a place, a layer and an answer code.

#[derive(Clone, Copy, PartialEq, Eq, Debug)]
pub enum Refusal {
    TooSmall(usize),
    Corrupt(usize),
    OutOfOrder,
    BadSecond,
    LogLimit(usize),
    ShortBuffer(usize),
    Malformed,
    UnknownService,
    Clearance,
    UnknownTable(u16),
    NoSuchUse,
    BadPart,
    BadContent,
    NotReady,
}

impl Refusal {
    pub fn cause(self) -> usize {
        match self {
            Refusal::TooSmall(_) => 1,
            Refusal::Corrupt(_) => 2,
            Refusal::OutOfOrder => 3,
            Refusal::BadSecond => 4,
            Refusal::LogLimit(_) => 5,
            Refusal::ShortBuffer(_) => 6,
            Refusal::Malformed => 7,
            Refusal::UnknownService => 8,
            Refusal::Clearance => 9,
            Refusal::UnknownTable(_) => 10,
            Refusal::NoSuchUse => 11,
            Refusal::BadPart => 12,
            Refusal::BadContent => 13,
            Refusal::NotReady => 14,
        }
    }

    pub fn place(self) -> usize {
        match self {
            Refusal::TooSmall(size) => size,
            Refusal::Corrupt(block) => block,
            Refusal::LogLimit(log) => log,
            Refusal::ShortBuffer(length) => length,
            Refusal::UnknownTable(number) => usize::from(number),
            _ => 0,
        }
    }

    pub fn layer(self) -> &'static str {
        match self.cause() {
            1..=2 => "memory",
            3..=5 => "meter",
            _ => "service",
        }
    }

    pub fn code(self) -> Option<u8> {
        match self.cause() {
            1..=4 | 7 => Some(0x01),
            8 => Some(0x02),
            9 => Some(0x03),
            5 | 11 => Some(0x04),
            10 | 12 | 13 => Some(0x05),
            14 => Some(0x07),
            _ => None,
        }
    }
}
