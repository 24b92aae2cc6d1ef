//! Trigger bytes and the rows of the three tables that can be staged.

use crate::time::{second_of, DateTime, LAST_SECOND, SECONDS};

pub const ABSOLUTE: u8 = 0;
pub const RELATIVE: u8 = 1;
pub const ON_COMMAND: u8 = 2;
pub const SELF_READ_FIRST: u8 = 0x10;

pub type TriggerBytes = [u8; 6];

/// A staging that waits. The second is 0 where a procedure is waited for.
#[derive(Clone, Copy, PartialEq, Eq, Debug)]
pub struct Row {
    pub trigger: TriggerBytes,
    pub second: u32,
}

pub fn kind_of(trigger: TriggerBytes) -> u8 {
    trigger[0] & 0x0F
}

fn named_moment(trigger: TriggerBytes) -> DateTime {
    [trigger[1], trigger[2], trigger[3], trigger[4], trigger[5], 0]
}

pub fn is_well_formed(trigger: TriggerBytes) -> bool {
    if trigger[0] & 0xE0 != 0 {
        return false;
    }
    match kind_of(trigger) {
        ABSOLUTE => second_of(named_moment(trigger)).is_some(),
        RELATIVE => true,
        ON_COMMAND => trigger[1..] == [0; 5],
        _ => false,
    }
}

/// The span of a relative trigger: weeks, days, hours, minutes, seconds.
fn span_of(trigger: TriggerBytes) -> u64 {
    let lengths = [604_800, 86_400, 3_600, 60, 1];
    trigger[1..].iter().zip(lengths).map(|(count, length)| u64::from(*count) * length).sum()
}

/// The second to store for a staging at this clock; none if the trigger names no second of the calendar.
pub fn trigger_second(trigger: TriggerBytes, clock: u32) -> Option<u32> {
    if !is_well_formed(trigger) {
        return None;
    }
    match kind_of(trigger) {
        ABSOLUTE => second_of(named_moment(trigger)),
        RELATIVE => {
            let second = u64::from(clock) + span_of(trigger);
            if second > u64::from(LAST_SECOND) {
                None
            } else {
                Some(second as u32)
            }
        }
        _ => Some(0),
    }
}

impl Row {
    pub fn is_due(&self, clock: u32) -> bool {
        kind_of(self.trigger) != ON_COMMAND && self.second <= clock
    }

    pub fn wants_self_read(&self) -> bool {
        self.trigger[0] & SELF_READ_FIRST != 0
    }

    /// Whether trigger bytes and second agree, as they must in block 0.
    pub fn is_in_order(&self) -> bool {
        if !is_well_formed(self.trigger) {
            return false;
        }
        match kind_of(self.trigger) {
            ABSOLUTE => second_of(named_moment(self.trigger)) == Some(self.second),
            RELATIVE => self.second < SECONDS,
            _ => self.second == 0,
        }
    }
}
