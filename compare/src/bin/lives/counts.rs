//! What was met in the lives that were compared.

use compare::procedures;
use std::collections::BTreeMap;

const RESULTS: [u8; 4] = [procedures::COMPLETED, procedures::INVALID_PARAMETER, procedures::CONFLICT, procedures::UNRECOGNIZED];

const PROCEDURES: [(u16, &str); 8] = [
    (procedures::RESET_LIST, "reset list"),
    (procedures::UPDATE_LAST_READ, "update last read entry"),
    (procedures::SET_DATE_TIME, "set date and time"),
    (procedures::ACTIVATE_ALL, "activate all"),
    (procedures::ACTIVATE_ONE, "activate one"),
    (procedures::WITHDRAW_ALL, "withdraw all"),
    (procedures::WITHDRAW_ONE, "withdraw one"),
    (procedures::TAKE_SELF_READ, "take self-read"),
];

#[derive(Default)]
pub struct Counts {
    pub scripts: u64,
    pub commands: u64,
    /// Commands that called the meter; a `ticks` is one of them, however many ticks it brought.
    pub calls: u64,
    /// The accepted ticks of all `ticks`.
    pub ticks: u64,
    /// Lines that were answered with `? `.
    pub complaints: u64,
    pub causes: [u64; 15],
    /// By procedure and result; procedures that there are not under 0.
    pub procedures: BTreeMap<(u16, u8), u64>,
    /// Stagings that ended, by what ended them.
    pub ends: BTreeMap<&'static str, u64>,
    /// Entries that went over an older one, of each log.
    pub overwritten: [u64; 3],
}

impl Counts {
    pub fn add(&mut self, other: &Counts) {
        self.scripts += other.scripts;
        self.commands += other.commands;
        self.calls += other.calls;
        self.ticks += other.ticks;
        self.complaints += other.complaints;
        for (cause, count) in other.causes.iter().enumerate() {
            self.causes[cause] += count;
        }
        for (key, count) in &other.procedures {
            *self.procedures.entry(*key).or_default() += count;
        }
        for (end, count) in &other.ends {
            *self.ends.entry(end).or_default() += count;
        }
        for (log, count) in other.overwritten.iter().enumerate() {
            self.overwritten[log] += count;
        }
    }

    pub fn procedure(&mut self, number: u16, result: u8) {
        let is_known = PROCEDURES.iter().any(|(known, _)| *known == number);
        *self.procedures.entry((if is_known { number } else { 0 }, result)).or_default() += 1;
    }

    pub fn print(&self) {
        println!(
            "{} scripts agree: {} commands, {} of them calls; {} ticks in runs of ticks; {} lines answered with ?",
            self.scripts, self.commands, self.calls, self.ticks, self.complaints
        );
        println!("refusals by cause:");
        for cause in 1..=14 {
            println!("  {cause:>2}: {}", self.causes[cause]);
        }
        println!("procedures by result: completed, invalid parameter, conflict, unrecognized");
        for (number, name) in PROCEDURES {
            self.print_procedure(number, &format!("{number} {name}"));
        }
        self.print_procedure(0, "any other");
        println!("stagings that ended:");
        for (end, count) in &self.ends {
            println!("  {end}: {count}");
        }
        let [history, self_reads, load_profile] = self.overwritten;
        println!("entries over older ones: history {history}, self-reads {self_reads}, load profile {load_profile}");
    }

    fn print_procedure(&self, number: u16, name: &str) {
        let counts = RESULTS.map(|result| *self.procedures.get(&(number, result)).unwrap_or(&0));
        println!("  {name:<26}{:>7}{:>7}{:>7}{:>7}", counts[0], counts[1], counts[2], counts[3]);
    }
}
