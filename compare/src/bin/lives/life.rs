//! Makes a script: a few meters are commissioned, damaged, repaired, and live for a while.
//!
//! Each command is carried out by the naive implementation as soon as it is chosen, so that the next one can be chosen by the clock,
//! the rows and the logs as they are then.

use crate::contents;
use crate::counts::Counts;
use crate::random::Random;
use compare::bytes::little16;
use compare::head::Head;
use compare::image::{Image, Make, NEEDED};
use compare::logs::LOGS;
use compare::procedures as procedure;
use compare::script::{words_of, Session, State};
use compare::time::{LAST_SECOND, SECONDS};

/// A script ends after so many calls.
const CALLS: u64 = 300;

/// So many ticks in runs has a script for meters of each make; more in a few scripts, for a week or a day at once.
const BARE_TICKS: u32 = 30_000;
const CHECKED_TICKS: u32 = 2_000;
const WEEK: u32 = 650_000;
const TWO_DAYS: u32 = 180_000;

/// A script and what the naive implementation answered.
pub struct Made {
    pub seed: u64,
    pub script: Vec<u8>,
    pub transcript: Vec<u8>,
    pub counts: Counts,
}

pub struct Life {
    pub random: Random,
    session: Session,
    script: Vec<u8>,
    transcript: Vec<u8>,
    counts: Counts,
    pub bare_ticks: u32,
    pub checked_ticks: u32,
}

pub fn make(seed: u64) -> Made {
    let mut life = Life::new(seed);
    if life.random.chance(10) {
        life.odd_line();
    }
    while life.counts.calls < CALLS {
        life.commission();
        life.live();
        while life.counts.calls < CALLS && life.random.chance(60) {
            life.rest();
            life.live();
        }
    }
    life.say("digest");
    life.counts.scripts = 1;
    Made { seed, script: life.script, transcript: life.transcript, counts: life.counts }
}

impl Life {
    fn new(seed: u64) -> Life {
        let mut random = Random::new(seed);
        let bare_ticks = if random.chance(4) { WEEK } else { BARE_TICKS };
        let checked_ticks = if random.chance(1) { TWO_DAYS } else { CHECKED_TICKS };
        let session = Session::new();
        Life { random, session, script: Vec::new(), transcript: Vec::new(), counts: Counts::default(), bare_ticks, checked_ticks }
    }

    // Saying a command, and what comes of it.

    pub fn say(&mut self, command: &str) {
        self.say_bytes(command.as_bytes());
    }

    pub fn say_bytes(&mut self, line: &[u8]) {
        let before = self.head();
        let lines = self.session.carry_out_line(line);
        self.count(line, &lines, before);
        self.script.extend(line);
        self.script.push(b'\n');
        self.transcript.extend(lines);
    }

    pub fn image(&self) -> Option<&Image> {
        match &self.session.state {
            State::Nothing => None,
            State::Cold(image) => Some(image),
            State::Started(meter) => Some(&meter.image),
        }
    }

    /// What block 0 says, in whatever state it is.
    pub fn head(&self) -> Head {
        match self.image() {
            Some(image) if image.size() > 0 => Head::decode(&image.load(0)),
            _ => Head::default(),
        }
    }

    pub fn is_started(&self) -> bool {
        matches!(self.session.state, State::Started(_))
    }

    pub fn clock(&self) -> u32 {
        match &self.session.state {
            State::Started(meter) => meter.clock,
            _ => 0,
        }
    }

    fn response(&self) -> [u8; 4] {
        match &self.session.state {
            State::Started(meter) => meter.response.unwrap_or_default(),
            _ => [0; 4],
        }
    }

    // Counting.

    fn count(&mut self, line: &[u8], lines: &[u8], before: Head) {
        let lines = String::from_utf8_lossy(lines).into_owned();
        let Some((_, answer)) = lines.split_once('\n') else { return };
        let command = String::from_utf8_lossy(line);
        let command = command.split_whitespace().next().unwrap_or("");
        self.counts.commands += 1;
        if answer.starts_with("? ") {
            self.counts.complaints += 1;
            return;
        }
        let words: Vec<&str> = answer.split_whitespace().collect();
        if let Some(place) = words.iter().position(|word| *word == "refused") {
            if let Some(cause) = words.get(place + 1).and_then(|cause| cause.parse::<usize>().ok()) {
                self.counts.causes[cause] += 1;
            }
        }
        if !["format", "start", "tick", "ticks", "energy", "serve", "serve-in", "stop"].contains(&command) {
            return;
        }
        self.counts.calls += 1;
        if command == "ticks" {
            self.counts.ticks += words[1].parse::<u64>().expect("a number of ticks");
        }
        if is_procedure_call(line) && words[1..].starts_with(&["00"]) {
            let response = self.response();
            self.counts.procedure(little16(&response), response[3]);
        }
        if command != "format" {
            self.count_changes(command, &before);
        }
    }

    /// Stagings that ended and entries that were overwritten in a call.
    fn count_changes(&mut self, command: &str, before: &Head) {
        let after = self.head();
        let procedure = little16(&self.response());
        let end = match (command, procedure) {
            ("start", _) => "took force at a start",
            ("tick" | "ticks", _) => "took force at a tick",
            (_, procedure::SET_DATE_TIME) => "took force at a clock setting",
            (_, procedure::ACTIVATE_ALL | procedure::ACTIVATE_ONE) => "took force by a procedure",
            _ => "withdrawn",
        };
        for row in 0..3 {
            if before.rows[row].is_some() && after.rows[row].is_none() {
                *self.counts.ends.entry(end).or_default() += 1;
            } else if before.rows[row].is_some() && before.rows[row] != after.rows[row] {
                *self.counts.ends.entry("replaced by another").or_default() += 1;
            }
        }
        for log in 0..3 {
            let is_full = u32::from(before.logs[log].held) == LOGS[log].slots;
            if is_full && after.logs[log].held == before.logs[log].held {
                self.counts.overwritten[log] += u64::from(after.logs[log].total - before.logs[log].total);
            }
        }
    }

    // From an image to a started meter.

    fn commission(&mut self) {
        self.new_image();
        if self.random.chance(30) {
            self.poke_somewhere();
        }
        if self.random.chance(10) {
            self.start();
        }
        if !self.is_started() {
            self.say("format");
        }
        for _ in 0..3 {
            if !self.is_started() {
                self.tamper();
                self.start();
            }
        }
        if !self.is_started() {
            self.say("format");
            self.start();
        }
    }

    fn new_image(&mut self) {
        let make = self.random.pick(&[Make::Bare, Make::Checked]);
        let (word, stride) = match make {
            Make::Bare => ("bare", 510),
            Make::Checked => ("checked", 512),
        };
        let exact = NEEDED as u32 * stride;
        let length = match self.random.below(20) {
            0 => self.random.pick(&[0, 1, stride - 1, stride, exact - 1, exact - stride]),
            1..=11 => exact,
            12..=14 => exact + self.random.below(stride),
            _ => exact + self.random.below(20 * stride),
        };
        self.say(&format!("image {word} {length}"));
    }

    fn image_length(&self) -> u32 {
        self.image().map_or(0, |image| image.bytes.len() as u32)
    }

    /// Overwrites a few bytes anywhere, or some near the front.
    fn poke_somewhere(&mut self) {
        let length = self.image_length();
        if length == 0 {
            return;
        }
        let count = self.random.between(1, 12).min(length);
        let most = length - count;
        let offset = if self.random.chance(70) { self.random.between(0, most) } else { self.random.below(90).min(most) };
        let bytes = self.random.bytes(count as usize);
        self.say(&format!("poke {offset} {}", hex(&bytes)));
    }

    /// What is done to a cold meter between its lives.
    fn tamper(&mut self) {
        let second = contents::eventful_second(&mut self.random);
        match self.random.below(20) {
            0..=5 => {
                let head = contents::aged_head(&mut self.random, second);
                self.say(&format!("write 0 {}", hex(&head.encode()[..88])));
                self.start_at(second);
            }
            6..=8 => self.try_doubtful_blocks(second),
            9..=10 => self.foreign_block(),
            11 => self.damage(),
            12 => self.poke_somewhere(),
            13 => self.look(),
            14 => self.odd_line(),
            _ => (),
        }
    }

    /// Starts on one block 0 after another, each of which may not be in order.
    fn try_doubtful_blocks(&mut self, second: u32) {
        for _ in 0..self.random.between(1, 5) {
            if self.is_started() {
                self.say("stop");
            }
            let head = contents::aged_head(&mut self.random, second);
            let content = contents::doubtful_block(&mut self.random, head);
            self.say(&format!("write 0 {}", hex(&content)));
            self.start_at(second);
        }
    }

    /// A table, a staged table or a part of a log that no rule has judged.
    fn foreign_block(&mut self) {
        let block = self.random.weighted(&[(3, 2), (2, 4), (3, 5), (1, 6), (2, 7), (2, 8), (1, 10), (1, 26), (1, 1), (1, 27)]);
        let count = self.random.pick(&[1, 16, 120, 510]);
        let mut content = self.random.bytes(count);
        if self.random.chance(60) {
            content.iter_mut().for_each(|byte| *byte %= 8);
        }
        self.say(&format!("write {block} {}", hex(&content)));
    }

    /// A byte of a block goes wrong; sometimes the block is found, or repaired.
    fn damage(&mut self) {
        let Some(image) = self.image() else { return };
        let (length, stride) = (image.bytes.len(), image.stride());
        if length == 0 {
            return;
        }
        let place = self.random.below(length as u32) as usize;
        let old = self.image().map_or(0, |image| image.bytes[place]);
        let wrong = old ^ (1 << self.random.below(8));
        self.say(&format!("poke {place} {}", hex(&[wrong])));
        if self.random.chance(50) {
            let below = self.random.pick(&[0, 1, 12, 27, 4096, u32::MAX]);
            self.say(&format!("unsound {below}"));
            self.say(&format!("block {}", place / stride));
        }
        self.start();
        if !self.is_started() && self.random.chance(60) {
            self.say(&format!("poke {place} {}", hex(&[old])));
        }
    }

    fn start(&mut self) {
        let second = contents::eventful_second(&mut self.random);
        self.start_at(second);
    }

    fn start_at(&mut self, second: u32) {
        let second = match self.random.below(25) {
            0 => self.random.pick(&[SECONDS, SECONDS + 1, u32::MAX]),
            1 => LAST_SECOND,
            _ => second,
        };
        self.say(&format!("start {second}"));
    }

    /// The meter is stopped, perhaps tampered with, and started again, mostly a little later.
    fn rest(&mut self) {
        if !self.is_started() {
            self.commission();
            return;
        }
        let clock = self.clock();
        self.say("stop");
        if self.random.chance(35) {
            self.tamper();
        }
        if !self.is_started() {
            let distance = self.random.pick(&[0, 10, 100, 5000, 1_000_000]);
            let second = contents::near(&mut self.random, clock, distance);
            self.start_at(second);
        }
    }
}

/// Whether a line serves a full write to the table that starts procedures.
fn is_procedure_call(line: &[u8]) -> bool {
    let words = words_of(line);
    let request = match words[0] {
        b"serve" => words[2..].concat(),
        b"serve-in" => words[4..].concat(),
        _ => return false,
    };
    request.starts_with(b"400007")
}

pub fn hex(bytes: &[u8]) -> String {
    bytes.iter().map(|byte| format!("{byte:02X}")).collect()
}
