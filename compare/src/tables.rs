//! The directory of tables, and the rules of the calendar and the override.

use crate::refusal::Refusal;
use crate::request::{Request, Service};

pub const PENDING_STATUS: u16 = 4;
pub const UTILITY: u16 = 6;
pub const INITIATE: u16 = 7;
pub const RESPONSE: u16 = 8;
pub const REGISTERS: u16 = 23;
pub const SELF_READS: u16 = 26;
pub const CLOCK: u16 = 52;
pub const CALENDAR: u16 = 54;
pub const LOAD_PROFILE: u16 = 64;
pub const HISTORY: u16 = 74;
pub const OUTPUTS: u16 = 2053;
pub const OVERRIDE: u16 = 2095;
/// The number of a staged table's twin is so much above its own.
pub const TWIN: u16 = 4096;

/// The most that a read answers.
const MOST_READ: usize = 1024;

/// A table that can be staged: its number, its length, the block in force and the one in which new bytes wait.
pub struct Staged {
    pub number: u16,
    pub length: usize,
    pub block: usize,
    pub pending_block: usize,
}

/// The staged tables in directory order, which is that of their rows.
pub const STAGED: [Staged; 3] = [
    Staged { number: CALENDAR, length: 120, block: 2, pending_block: 5 },
    Staged { number: OUTPUTS, length: 60, block: 3, pending_block: 6 },
    Staged { number: OVERRIDE, length: 16, block: 4, pending_block: 7 },
];

pub const UTILITY_BLOCK: usize = 1;
pub const CALENDAR_BLOCK: usize = 2;
pub const OVERRIDE_BLOCK: usize = 4;

/// The place of a staged table among the three.
pub fn staged_index(number: u16) -> Option<usize> {
    STAGED.iter().position(|table| table.number == number)
}

/// The same, for the number of a twin.
pub fn twin_index(number: u16) -> Option<usize> {
    number.checked_sub(TWIN).and_then(staged_index)
}

pub fn length_of(number: u16) -> Result<usize, Refusal> {
    if let Some(index) = twin_index(number) {
        return Ok(STAGED[index].length + 6);
    }
    match number {
        PENDING_STATUS => Ok(31),
        UTILITY => Ok(40),
        INITIATE => Ok(9),
        RESPONSE => Ok(4),
        REGISTERS => Ok(20),
        SELF_READS => Ok(634),
        CLOCK => Ok(6),
        CALENDAR => Ok(120),
        LOAD_PROFILE => Ok(7402),
        HISTORY => Ok(1030),
        OUTPUTS => Ok(60),
        OVERRIDE => Ok(16),
        _ => Err(Refusal::UnknownTable(number)),
    }
}

pub fn allows(number: u16, service: Service) -> bool {
    let is_read = matches!(service, Service::FullRead | Service::PartialRead);
    match number {
        INITIATE => service == Service::FullWrite,
        UTILITY | CALENDAR | OUTPUTS | OVERRIDE => true,
        _ if twin_index(number).is_some() => is_read || service == Service::FullWrite,
        _ => is_read,
    }
}

/// Offset and count of the bytes that a request is about.
pub fn part_of(request: &Request, length: usize) -> Result<(usize, usize), Refusal> {
    let (offset, count) = match request.service {
        Service::FullRead => (0, length),
        _ => (request.offset, request.count),
    };
    let fits = match request.service {
        Service::FullRead => true,
        Service::FullWrite if request.table == INITIATE => (3..=9).contains(&count),
        Service::FullWrite => count == length,
        Service::PartialRead | Service::PartialWrite => count > 0 && offset + count <= length,
    };
    if !fits || (request.is_read() && count > MOST_READ) {
        return Err(Refusal::BadPart);
    }
    Ok((offset, count))
}

fn is_tier(byte: u8) -> bool {
    (1..=4).contains(&byte)
}

fn is_right_calendar(table: &[u8]) -> bool {
    table[0] & !3 == 0 && table[1] < 7 && table[2] < 24 && table[3] < 60 && table[4..28].iter().all(|tier| is_tier(*tier))
}

/// Whether a whole table keeps the rules of its number.
pub fn is_right(number: u16, table: &[u8]) -> bool {
    match number {
        CALENDAR => is_right_calendar(table),
        OVERRIDE => table[0] <= 4,
        _ => true,
    }
}

/// The active tier at an hour.
pub fn active_tier(calendar: &[u8], override_table: &[u8], hour: u8) -> usize {
    let by_hour = calendar[4 + usize::from(hour)];
    if is_tier(override_table[0]) {
        usize::from(override_table[0])
    } else if is_tier(by_hour) {
        usize::from(by_hour)
    } else {
        1
    }
}
