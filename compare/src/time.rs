//! Seconds since 2000-01-01 00:00:00 and date-times of the years 2000 to 2099.

pub const DAY: u32 = 86_400;
/// The first second outside the calendar.
pub const SECONDS: u32 = 3_155_760_000;
pub const LAST_SECOND: u32 = SECONDS - 1;

/// Year (0 to 99), month, day, hour, minute, second.
pub type DateTime = [u8; 6];

fn year_length(year: u8) -> u32 {
    if year % 4 == 0 {
        366
    } else {
        365
    }
}

fn month_length(year: u8, month: u8) -> u32 {
    match month {
        2 if year % 4 == 0 => 29,
        2 => 28,
        4 | 6 | 9 | 11 => 30,
        _ => 31,
    }
}

pub fn is_real(moment: DateTime) -> bool {
    let [year, month, day, hour, minute, second] = moment;
    year < 100
        && (1..=12).contains(&month)
        && day >= 1
        && u32::from(day) <= month_length(year, month)
        && hour < 24
        && minute < 60
        && second < 60
}

pub fn second_of(moment: DateTime) -> Option<u32> {
    if !is_real(moment) {
        return None;
    }
    let [year, month, day, hour, minute, second] = moment;
    let years: u32 = (0..year).map(year_length).sum();
    let months: u32 = (1..month).map(|month| month_length(year, month)).sum();
    let days = years + months + u32::from(day) - 1;
    Some(days * DAY + u32::from(hour) * 3600 + u32::from(minute) * 60 + u32::from(second))
}

pub fn moment_of(second: u32) -> Option<DateTime> {
    if second >= SECONDS {
        return None;
    }
    let mut days = second / DAY;
    let mut year = 0;
    while days >= year_length(year) {
        days -= year_length(year);
        year += 1;
    }
    let mut month = 1;
    while days >= month_length(year, month) {
        days -= month_length(year, month);
        month += 1;
    }
    let rest = second % DAY;
    Some([year, month, days as u8 + 1, (rest / 3600) as u8, (rest / 60 % 60) as u8, (rest % 60) as u8])
}

/// 0 is Sunday. The first day of the calendar was a Saturday.
pub fn weekday_of(second: u32) -> u8 {
    ((second / DAY + 6) % 7) as u8
}

pub fn hour_of(second: u32) -> u8 {
    (second % DAY / 3600) as u8
}
