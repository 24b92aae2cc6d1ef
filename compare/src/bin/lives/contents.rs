//! Contents for tables, triggers and block 0: right ones, and such as break a rule.

use crate::random::Random;
use compare::head::Head;
use compare::logs::{LogHead, LIMIT, LOGS};
use compare::staging::{trigger_second, Row, TriggerBytes, ABSOLUTE, ON_COMMAND, RELATIVE, SELF_READ_FIRST};
use compare::tables::{CALENDAR, OVERRIDE};
use compare::time::{hour_of, moment_of, weekday_of, DateTime, LAST_SECOND, SECONDS};

/// A second a little before or after this one, or the same, in the calendar.
pub fn near(random: &mut Random, second: u32, most: u32) -> u32 {
    let back = random.below(most + 1).min(second);
    let ahead = random.below(most + 1);
    let moved = if random.chance(30) { second - back } else { second.saturating_add(ahead) };
    moved.min(LAST_SECOND)
}

/// A second at which something is about to happen.
pub fn eventful_second(random: &mut Random) -> u32 {
    let any = random.below(SECONDS);
    let before = random.below(4);
    let to_the_end = random.pick(&[0, 2, 70, 5000]);
    let second = match random.below(8) {
        0 => any,
        1 => 0,
        2 => random.below(2000),
        3 => LAST_SECOND - random.below(to_the_end + 1),
        4 => any / 86_400 * 86_400,
        5 => any / 3_600 * 3_600,
        _ => any / 900 * 900,
    };
    second.saturating_sub(before)
}

pub fn unreal_moment(random: &mut Random, second: u32) -> DateTime {
    let mut moment = moment_of(second).expect("in the calendar");
    match random.below(8) {
        0 => moment[0] = random.pick(&[100, 127, 255]),
        1 => moment[1] = random.pick(&[0, 13, 255]),
        2 => moment[2] = random.pick(&[0, 32, 255]),
        3 => moment[3] = random.pick(&[24, 60, 255]),
        4 => moment[4] = random.pick(&[60, 61, 255]),
        5 => moment[5] = random.pick(&[60, 61, 255]),
        6 => {
            moment[1] = 2;
            moment[2] = random.pick(&[29, 30]);
        }
        _ => {
            moment[1] = random.pick(&[4, 6, 9, 11]);
            moment[2] = 31;
        }
    }
    moment
}

/// Mostly a calendar whose self-read comes soon after the clock.
pub fn calendar(random: &mut Random, clock: u32) -> Vec<u8> {
    let soon = near(random, clock, 300);
    let mut table = if random.chance(50) { vec![0; 120] } else { random.bytes(120) };
    table[0] = random.below(4) as u8;
    table[1] = if random.chance(60) { weekday_of(soon) } else { random.below(7) as u8 };
    table[2] = hour_of(soon);
    table[3] = (soon / 60 % 60) as u8;
    if random.chance(25) {
        table[2] = random.pick(&[0, 12, 23]);
        table[3] = random.pick(&[0, 15, 30, 59]);
    }
    let tier = random.pick(&[0, 0, 1, 2, 3, 4]);
    for byte in &mut table[4..28] {
        *byte = if tier == 0 { random.between(1, 4) as u8 } else { tier };
    }
    table
}

fn wrong_calendar(random: &mut Random, clock: u32) -> Vec<u8> {
    let mut table = calendar(random, clock);
    match random.below(5) {
        0 => table[0] = random.pick(&[4, 8, 131, 255]),
        1 => table[1] = random.pick(&[7, 8, 255]),
        2 => table[2] = random.pick(&[24, 25, 255]),
        3 => table[3] = random.pick(&[60, 61, 255]),
        _ => table[4 + random.below(24) as usize] = random.pick(&[0, 5, 255]),
    }
    table
}

/// A content for a table that can be written.
pub fn table(random: &mut Random, number: u16, length: usize, clock: u32) -> Vec<u8> {
    match number {
        CALENDAR if random.chance(85) => calendar(random, clock),
        CALENDAR => wrong_calendar(random, clock),
        OVERRIDE => {
            let mut table = random.bytes(length);
            table[0] = random.weighted(&[(3, 0), (2, 1), (2, 2), (2, 3), (2, 4), (1, 5), (1, 255)]);
            table
        }
        _ => random.bytes(length),
    }
}

/// Six trigger bytes; most are well formed, and most of these come due soon.
pub fn trigger(random: &mut Random, clock: u32) -> TriggerBytes {
    let mut trigger = match random.weighted(&[(4, ABSOLUTE), (5, RELATIVE), (2, ON_COMMAND)]) {
        ABSOLUTE => absolute(random, clock),
        RELATIVE => relative(random, clock),
        _ => [ON_COMMAND, 0, 0, 0, 0, 0],
    };
    if random.chance(40) {
        trigger[0] |= SELF_READ_FIRST;
    }
    if random.chance(4) {
        trigger[random.below(6) as usize] ^= 1 << random.below(8);
    }
    trigger
}

fn absolute(random: &mut Random, clock: u32) -> TriggerBytes {
    let distance = random.weighted(&[(8, 120), (4, 1200), (2, 90_000), (1, 1_000_000)]);
    let second = near(random, clock, distance);
    let [year, month, day, hour, minute, _] =
        if random.chance(90) { moment_of(second).expect("in the calendar") } else { unreal_moment(random, second) };
    [ABSOLUTE, year, month, day, hour, minute]
}

fn relative(random: &mut Random, clock: u32) -> TriggerBytes {
    let left = LAST_SECOND - clock;
    if left < 200_000 && random.chance(50) {
        return span(left + random.below(2));
    }
    match random.below(10) {
        0..=3 => [RELATIVE, 0, 0, 0, 0, random.below(30) as u8],
        4..=5 => [RELATIVE, 0, 0, 0, random.below(4) as u8, random.byte()],
        6 => [RELATIVE, 0, 0, random.below(3) as u8, random.byte(), random.byte()],
        7 => [RELATIVE, 0, random.below(3) as u8, random.byte(), 0, 0],
        8 => [RELATIVE, random.byte(), 0, 0, 0, 0],
        _ => [RELATIVE, random.byte(), random.byte(), random.byte(), random.byte(), random.byte()],
    }
}

/// The relative trigger of a span below 255 days.
fn span(seconds: u32) -> TriggerBytes {
    let days = (seconds / 86_400) as u8;
    let hours = (seconds / 3600 % 24) as u8;
    [RELATIVE, 0, days, hours, (seconds / 60 % 60) as u8, (seconds % 60) as u8]
}

/// Block 0 of a meter that has lived elsewhere: it is in order.
pub fn aged_head(random: &mut Random, second: u32) -> Head {
    let mut head = Head::default();
    for log in 0..3 {
        head.logs[log] = aged_log(random, LOGS[log].slots);
        head.rows[log] = aged_row(random, second);
    }
    head.was_activated = random.chance(50);
    head.last_activation = if random.chance(50) { near(random, second, 100_000) } else { 0 };
    for register in &mut head.registers {
        *register = random.pick(&[0, 0, 1000, u32::MAX, u32::MAX - 500]);
    }
    head.status = random.below(4) as u8;
    head
}

fn aged_log(random: &mut Random, slots: u32) -> LogHead {
    let few = random.below(40);
    let total = match random.below(20) {
        0..=3 => 0,
        4..=6 => few,
        7..=10 => (slots + few).saturating_sub(30),
        11..=15 => random.below(LIMIT),
        16..=17 => LIMIT - few,
        18 => LIMIT - 1000 - few,
        _ => random.pick(&[LIMIT, LIMIT, LIMIT, LIMIT + 1, u32::MAX]),
    };
    let most = total.min(slots);
    let held = if random.chance(70) { most.saturating_sub(random.below(4)) } else { random.between(0, most) };
    let some = random.between(0, held);
    let unread = random.pick(&[0, held, held / 2, some]);
    LogHead { total, held: held as u16, unread: unread as u16 }
}

fn aged_row(random: &mut Random, second: u32) -> Option<Row> {
    if random.chance(60) {
        return None;
    }
    let trigger = trigger(random, second);
    trigger_second(trigger, second).map(|second| Row { trigger, second })
}

/// A block 0 that is not in order, or is just within it.
pub fn doubtful_block(random: &mut Random, mut head: Head) -> Vec<u8> {
    let log = random.below(3) as usize;
    let one_off = random.below(2);
    match random.below(20) {
        0 => head.logs[log].held = (LOGS[log].slots + one_off) as u16,
        1 => head.logs[log].unread = head.logs[log].held + one_off as u16,
        2 => head.logs[log].total = u32::from(head.logs[log].held).saturating_sub(one_off),
        3 => head.logs.iter_mut().for_each(|log| log.total = LIMIT + random.below(2)),
        4 => head.last_activation = LAST_SECOND + one_off,
        5 => head.status = random.pick(&[3, 4, 7, 255]),
        6..=9 => head.rows[log] = Some(doubtful_row(random)),
        _ => return one_byte_changed(random, head.encode()),
    }
    head.encode()
}

fn doubtful_row(random: &mut Random) -> Row {
    let second = random.between(1000, 200_000);
    let one_off = random.below(2);
    match random.below(5) {
        0 => Row { trigger: relative(random, second), second: LAST_SECOND + one_off },
        1 => Row { trigger: [ON_COMMAND, 0, 0, 0, 0, 0], second: one_off },
        2 => Row { trigger: trigger(random, second), second },
        _ => {
            let trigger = absolute(random, second);
            Row { trigger, second: trigger_second(trigger, second).unwrap_or(0) + one_off }
        }
    }
}

/// One byte of block 0 is another; most often one that ends or begins something.
fn one_byte_changed(random: &mut Random, mut content: Vec<u8>) -> Vec<u8> {
    let anywhere = random.below(510) as usize;
    let in_front = random.below(88) as usize;
    let place = random.pick(&[0, 1, 2, 3, 13, 14, 15, 25, 26, 27, 37, 62, 87, 88, 509, in_front, in_front, anywhere]);
    content[place] = random.pick(&[0, 1, 2, 16, 255, content[place].wrapping_add(1)]);
    content
}
