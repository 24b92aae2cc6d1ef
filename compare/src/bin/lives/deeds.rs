//! What is done with a started meter: time, energy, requests of all kinds, and looks at it.

use crate::contents;
use crate::life::{hex, Life};
use crate::requests;
use compare::image::Make;
use compare::procedures as procedure;
use compare::tables::{self, STAGED, TWIN};
use compare::time::{moment_of, LAST_SECOND};

const READABLE: [u16; 11] = [4, 6, 8, 23, 26, 52, 54, 64, 74, 2053, 2095];
const WRITABLE: [u16; 4] = [6, 54, 2053, 2095];
const TWINS: [u16; 3] = [TWIN + 54, TWIN + 2053, TWIN + 2095];
const UNKNOWN: [u16; 12] = [0, 3, 5, 9, 53, 2054, 4096, 4102, 4103, 4170, 32_822, 65_535];

#[derive(Clone, Copy)]
enum Deed {
    Tick,
    ShortRun,
    RunToEvent,
    LongRun,
    Energy,
    FullRead,
    PartialRead,
    Write,
    PartialWrite,
    Stage,
    Procedure,
    WrongUse,
    UnknownTable,
    WrongKey,
    Spoiled,
    RandomBytes,
    Look,
    OddLine,
}

const DEEDS: [(u32, Deed); 18] = [
    (8, Deed::Tick),
    (8, Deed::ShortRun),
    (8, Deed::RunToEvent),
    (1, Deed::LongRun),
    (7, Deed::Energy),
    (12, Deed::FullRead),
    (12, Deed::PartialRead),
    (6, Deed::Write),
    (6, Deed::PartialWrite),
    (12, Deed::Stage),
    (26, Deed::Procedure),
    (3, Deed::WrongUse),
    (3, Deed::UnknownTable),
    (3, Deed::WrongKey),
    (6, Deed::Spoiled),
    (3, Deed::RandomBytes),
    (8, Deed::Look),
    (3, Deed::OddLine),
];

impl Life {
    pub fn live(&mut self) {
        for _ in 0..self.random.between(10, 120) {
            if !self.is_started() {
                return;
            }
            let deed = self.random.weighted(&DEEDS);
            self.carry_out(deed);
            if self.random.chance(4) {
                self.say("digest");
            }
        }
    }

    fn carry_out(&mut self, deed: Deed) {
        match deed {
            Deed::Tick => self.say("tick"),
            Deed::ShortRun => {
                let count = self.random.below(20);
                self.run_ticks(count);
            }
            Deed::RunToEvent => self.run_to_event(),
            Deed::LongRun => self.long_run(),
            Deed::Energy => self.energy(),
            Deed::FullRead => self.full_read(),
            Deed::PartialRead => self.partial_read(),
            Deed::Write => self.write(),
            Deed::PartialWrite => self.partial_write(),
            Deed::Stage => self.stage(),
            Deed::Procedure => self.procedure(),
            Deed::WrongUse => self.wrong_use(),
            Deed::UnknownTable => self.unknown_table(),
            Deed::WrongKey => self.wrong_key(),
            Deed::Spoiled => self.spoiled(),
            Deed::RandomBytes => self.random_bytes(),
            Deed::Look => self.look(),
            Deed::OddLine => self.odd_line(),
        }
    }

    fn ticks_left(&mut self) -> &mut u32 {
        match self.image().map(|image| image.make) {
            Some(Make::Checked) => &mut self.checked_ticks,
            _ => &mut self.bare_ticks,
        }
    }

    fn run_ticks(&mut self, count: u32) {
        let left = self.ticks_left();
        *left = left.saturating_sub(count);
        self.say(&format!("ticks {count}"));
    }

    /// Runs to the second of a row, or to the next quarter or minute, or one off. What is too far for the script's allowance is reached
    /// by a clock setting and a few ticks.
    fn run_to_event(&mut self) {
        let clock = self.clock();
        let mut seconds = vec![clock / 900 * 900 + 900, clock / 60 * 60 + 60];
        seconds.extend(self.head().rows.iter().flatten().map(|row| row.second));
        let off = self.random.below(2);
        let second = self.random.pick(&seconds).saturating_sub(off).min(LAST_SECOND);
        let distance = second.saturating_sub(clock);
        let most = (*self.ticks_left()).clamp(20, 4000);
        if distance <= most {
            self.run_ticks(distance);
        } else {
            let few = self.random.below(4);
            let moment = moment_of(second - few).expect("in the calendar");
            self.call(procedure::SET_DATE_TIME, &moment);
            self.run_ticks(few);
        }
    }

    fn long_run(&mut self) {
        let left = *self.ticks_left();
        let count = match self.random.below(4) {
            0 => self.random.below(2000),
            1 => 3600,
            2 => self.random.below(90_000),
            _ => left,
        };
        self.run_ticks(count.min(left).max(2));
    }

    fn energy(&mut self) {
        let some = self.random.below(5000);
        let watt_hours = self.random.pick(&[0, 1, some, some, some, u32::MAX, u32::MAX - some]);
        self.say(&format!("energy {watt_hours}"));
    }

    // Requests.

    /// Sends a request; now and then with another key, or with buffers of odd lengths.
    fn send(&mut self, key: u8, request: &[u8]) {
        let key = if self.random.chance(4) { self.random.pick(&[0, 1, 3]) } else { key };
        let request = self.written(request);
        if self.random.chance(6) {
            let answer = self.random.weighted(&[(6, 1028), (2, 1027), (1, 0), (3, 4096), (2, 1500)]);
            let scratch = self.random.weighted(&[(6, 510), (2, 509), (1, 0), (3, 4096), (2, 511)]);
            self.say(&format!("serve-in {answer} {scratch} {key} {request}"));
        } else {
            self.say(&format!("serve {key} {request}"));
        }
    }

    fn read(&mut self, request: &[u8]) {
        let key = self.random.pick(&[1, 2]);
        self.send(key, request);
    }

    /// Bytes in one of the ways in which a script may have them.
    fn written(&mut self, bytes: &[u8]) -> String {
        match self.random.below(20) {
            0 => hex(bytes).to_lowercase(),
            1 => bytes.iter().map(|byte| format!("{byte:02x} ")).collect(),
            2 => bytes.iter().map(|byte| format!("{:X}\t {:x}", byte / 16, byte % 16)).collect(),
            _ => hex(bytes),
        }
    }

    fn readable(&mut self) -> u16 {
        if self.random.chance(25) {
            self.random.pick(&TWINS)
        } else {
            self.random.pick(&READABLE)
        }
    }

    fn full_read(&mut self) {
        let table = self.readable();
        self.read(&requests::full_read(table));
    }

    fn partial_read(&mut self) {
        let table = self.readable();
        let (offset, count) = self.part(length_of(table), 1024);
        self.read(&requests::partial_read(table, offset, count));
    }

    /// An offset and a count; most lie in the table.
    fn part(&mut self, length: u32, most: u32) -> (u32, u16) {
        let random = &mut self.random;
        let offset = if random.chance(30) { 0 } else { random.below(length) };
        let left = length - offset;
        let count = match random.below(20) {
            0 => 0,
            1 => left + 1,
            2 => random.pick(&[1025, 65_535]),
            3 => return (random.pick(&[length, length + 1, 0x00FF_FFFF]), 1),
            4..=9 => left.min(most),
            10..=13 => random.between(1, left.min(20)),
            _ => random.between(1, left.min(most)),
        };
        (offset, count as u16)
    }

    fn write(&mut self) {
        let table = self.random.pick(&WRITABLE);
        let clock = self.clock();
        let mut data = contents::table(&mut self.random, table, length_of(table) as usize, clock);
        if self.random.chance(8) {
            data.push(0);
        } else if self.random.chance(8) {
            data.pop();
        }
        if self.random.chance(5) {
            let count = self.random.pick(&[0, 1, 2, 10, 11]);
            data.resize(count, 0);
            self.send(2, &requests::full_write(tables::INITIATE, &data));
            return;
        }
        self.send(2, &requests::full_write(table, &data));
    }

    fn partial_write(&mut self) {
        let table = self.random.pick(&WRITABLE);
        let (offset, count) = self.part(length_of(table), 120);
        let (first, last) = (offset as usize, offset as usize + usize::from(count.min(600)));
        let clock = self.clock();
        let mut data = contents::table(&mut self.random, table, length_of(table) as usize, clock);
        data.resize(last.min(700).max(data.len()), 3);
        // A part far outside the table is sent as one byte.
        let data = if last <= data.len() { &data[first..last] } else { &data[..1] };
        self.send(2, &requests::partial_write(table, offset, data));
    }

    fn stage(&mut self) {
        let index = self.random.below(3) as usize;
        let clock = self.clock();
        let table = &STAGED[index];
        let mut data = contents::trigger(&mut self.random, clock).to_vec();
        data.extend(contents::table(&mut self.random, table.number, table.length, clock));
        if self.random.chance(3) {
            data.pop();
        }
        self.send(2, &requests::full_write(TWIN + table.number, &data));
    }

    /// A service that the table does not have; the part may be wrong besides.
    fn wrong_use(&mut self) {
        let (offset, count) = self.part(9, 9);
        let data = self.random.bytes(usize::from(count.min(20)));
        let read_only = self.random.pick(&[4, 8, 23, 26, 52, 64, 74]);
        let request = match self.random.below(6) {
            0 => requests::full_read(tables::INITIATE),
            1 => requests::partial_read(tables::INITIATE, offset, count),
            2 => requests::partial_write(tables::INITIATE, offset, &data),
            3 => requests::partial_write(self.random.pick(&TWINS), offset, &data),
            4 => requests::full_write(read_only, &data),
            _ => requests::partial_write(read_only, offset, &data),
        };
        self.send(2, &request);
    }

    fn unknown_table(&mut self) {
        let table = self.random.pick(&UNKNOWN);
        let table = if self.random.chance(20) { self.random.below(65_536) as u16 } else { table };
        let request = match self.random.below(4) {
            0 => requests::full_read(table),
            1 => requests::partial_read(table, 0, 1),
            2 => requests::full_write(table, &[1, 2, 3]),
            _ => requests::partial_write(table, 0, &[1]),
        };
        self.send(2, &request);
    }

    fn wrong_key(&mut self) {
        let key = self.random.pick(&[0, 3, 255]);
        let request = self.any_request();
        let key = if request[0] >= 0x40 && self.random.chance(70) { 1 } else { key };
        self.send(key, &request);
    }

    fn any_request(&mut self) -> Vec<u8> {
        let table = self.readable();
        let data = self.random.bytes(16);
        match self.random.below(4) {
            0 => requests::full_read(table),
            1 => requests::partial_read(table, 0, 4),
            2 => requests::full_write(tables::OVERRIDE, &data),
            _ => requests::partial_write(tables::UTILITY, 3, &data),
        }
    }

    fn spoiled(&mut self) {
        let request = self.any_request();
        let request = requests::spoiled(&mut self.random, request);
        self.send(2, &request);
    }

    fn random_bytes(&mut self) {
        let request = requests::random_bytes(&mut self.random);
        let key = self.random.pick(&[1, 2, 2, 2]);
        self.send(key, &request);
    }

    // Procedures.

    fn procedure(&mut self) {
        let number = self.random.weighted(&[
            (4, procedure::RESET_LIST),
            (12, procedure::UPDATE_LAST_READ),
            (12, procedure::SET_DATE_TIME),
            (4, procedure::ACTIVATE_ALL),
            (8, procedure::ACTIVATE_ONE),
            (3, procedure::WITHDRAW_ALL),
            (6, procedure::WITHDRAW_ONE),
            (12, procedure::TAKE_SELF_READ),
            (3, 0),
        ]);
        let mut parameters = self.parameters(number);
        match self.random.below(20) {
            0 => parameters.push(0),
            1 => {
                parameters.pop();
            }
            _ => (),
        }
        if number == 0 {
            let any = self.random.below(65_536) as u16;
            let unknown = self.random.pick(&[0, 3, 6, 11, 16, 21, 0x0400, 0x1400, 0x010C, any]);
            self.call(unknown, &parameters);
        } else {
            self.call(number, &parameters);
        }
        if self.random.chance(35) {
            self.read(&requests::full_read(tables::RESPONSE));
        }
    }

    fn call(&mut self, number: u16, parameters: &[u8]) {
        let mut data = number.to_le_bytes().to_vec();
        data.push(self.random.byte());
        data.extend(parameters);
        self.send(2, &requests::full_write(tables::INITIATE, &data));
    }

    /// Parameters of the right length, most of them right.
    fn parameters(&mut self, number: u16) -> Vec<u8> {
        match number {
            procedure::RESET_LIST => vec![self.random.pick(&[1, 2, 3, 1, 2, 3, 255, 0, 4, 254])],
            procedure::UPDATE_LAST_READ => self.last_read_parameters(),
            procedure::SET_DATE_TIME => self.moment_parameters(),
            procedure::ACTIVATE_ONE | procedure::WITHDRAW_ONE => self.row_parameters(),
            _ => Vec::new(),
        }
    }

    fn last_read_parameters(&mut self) -> Vec<u8> {
        let log = self.random.below(3) as usize;
        let unread = self.head().logs[log].unread;
        let some = self.random.between(0, u32::from(unread)) as u16;
        let swapped = unread.swap_bytes();
        let count = self.random.pick(&[0, 1, some, some, some, unread, unread + 1, swapped, 65_535]);
        let byte = if self.random.chance(92) { log as u8 + 1 } else { self.random.pick(&[0, 4, 255]) };
        let mut parameters = vec![byte];
        parameters.extend(count.to_le_bytes());
        parameters
    }

    fn moment_parameters(&mut self) -> Vec<u8> {
        let second = self.clock_to_set();
        if self.random.chance(12) {
            contents::unreal_moment(&mut self.random, second).to_vec()
        } else {
            moment_of(second).expect("in the calendar").to_vec()
        }
    }

    /// Near the clock, near the second of a row, or anywhere.
    fn clock_to_set(&mut self) -> u32 {
        let clock = self.clock();
        let quarter = (clock / 900 * 900 + 899).min(LAST_SECOND);
        let mut seconds = vec![clock, clock, quarter, quarter];
        seconds.push(contents::near(&mut self.random, clock, 600));
        seconds.push(contents::near(&mut self.random, clock, 200_000));
        seconds.push(contents::eventful_second(&mut self.random));
        for row in self.head().rows.iter().flatten() {
            seconds.push(row.second);
            seconds.push(row.second.saturating_sub(1));
        }
        self.random.pick(&seconds)
    }

    fn row_parameters(&mut self) -> Vec<u8> {
        let rows = self.head().rows;
        let mut indexes = vec![self.random.below(3) as usize];
        indexes.extend((0..3).filter(|index| rows[*index].is_some()));
        let number = STAGED[self.random.pick(&indexes)].number;
        let any = self.random.below(65_536) as u16;
        let wrong = self.random.pick(&[TWIN + number, number.swap_bytes(), 6, 0, any]);
        let number = if self.random.chance(85) { number } else { wrong };
        number.to_le_bytes().to_vec()
    }

    // Looking, and lines that are no command.

    pub fn look(&mut self) {
        let some = self.random.below(u32::MAX);
        let block = self.random.pick(&[0, 0, 0, 1, 2, 3, 4, 5, 6, 7, 8, 9, 10, 11, 12, 26, 27, 100, some]);
        let moment = self.random.bytes(6);
        let [year, month, day, hour, minute, second] = [0, 1, 2, 3, 4, 5].map(|i| u32::from(moment[i]));
        match self.random.below(12) {
            0..=2 => self.say("digest"),
            3..=6 => self.say(&format!("block {block}")),
            7 => self.say(&format!("unsound {block}")),
            8..=9 => self.say("clock"),
            10 => self.say(&format!("moment {some}")),
            _ => {
                let (month, day, hour) = (month % 14, day % 33, hour % 25);
                self.say(&format!("second {} {month} {day} {hour} {} {}", year % 101, minute % 61, second % 61));
            }
        }
    }

    /// A line that is malformed, or is not admitted in this state, or is a command in an odd dress.
    pub fn odd_line(&mut self) {
        let lines: [&[u8]; 48] = [
            b"",
            b"  \t ",
            b"# serve 2 300034",
            b"  # tick",
            b"\t tick",
            b"clock\t ",
            b"  unsound\t\t0027",
            b"tick\r",
            b"\r",
            b"\xFF\xFE \x00",
            b"xyzzy",
            b"TICK",
            b"format",
            b"format 1",
            b"start 5",
            b"start",
            b"start 4294967296",
            b"start -1",
            b"poke 0 00",
            b"poke 0",
            b"poke 4294967295 00",
            b"write 0",
            b"write 4294967295 01",
            b"write 0 0",
            b"image bare",
            b"image odd 100",
            b"image bare 16777217",
            b"image checked 1e4",
            b"block",
            b"block 4294967296",
            b"unsound +1",
            b"digest 1",
            b"tick 1",
            b"ticks",
            b"ticks 100000001",
            b"ticks 0",
            b"ticks 0x1",
            b"energy",
            b"energy 4294967296",
            b"stop 1",
            b"serve",
            b"serve 256 300034",
            b"serve 1 30003",
            b"serve 1 30 00 3G",
            b"serve-in 1028 510",
            b"serve-in 4097 510 1 300034",
            b"second 1 2 3 4 5",
            b"second 256 1 1 0 0 0",
        ];
        let line = self.random.pick(&lines);
        self.say_bytes(line);
        if self.random.chance(5) {
            let line = format!("write 1 {}", "00".repeat(511));
            self.say(&line);
        }
    }
}

fn length_of(table: u16) -> u32 {
    tables::length_of(table).expect("a table of the directory") as u32
}
