//! The script language: a session carries out commands, one to a line, and writes what took place.

use crate::image::{Image, Make, CONTENT};
use crate::meter::{self, Meter};
use crate::refusal::Refusal;
use crate::time::{moment_of, second_of, weekday_of};

const MOST_BYTES: u32 = 16_777_216;
const MOST_TICKS: u32 = 100_000_000;
const MOST_BUFFER: u32 = 4096;
const FILLER: u8 = 0xAA;

pub enum State {
    Nothing,
    Cold(Image),
    Started(Meter),
}

pub struct Session {
    pub state: State,
}

/// Why a line was not carried out.
type Complaint = &'static str;
type Answer = Result<String, Complaint>;

const MALFORMED: Complaint = "malformed";
const NO_IMAGE: Complaint = "there is no image";
const NOT_COLD: Complaint = "this wants a cold meter";
const NOT_STARTED: Complaint = "this wants a started meter";

pub fn words_of(line: &[u8]) -> Vec<&[u8]> {
    line.split(|byte| *byte == b' ' || *byte == b'\t').filter(|word| !word.is_empty()).collect()
}

/// Carries out a whole script and gives the transcript.
pub fn run(script: &[u8]) -> Vec<u8> {
    let mut session = Session::new();
    let mut transcript = Vec::new();
    for line in script.split(|byte| *byte == b'\n') {
        transcript.extend(session.carry_out_line(line));
    }
    transcript
}

impl Session {
    pub fn new() -> Session {
        Session { state: State::Nothing }
    }

    /// Carries out a line, without its newline, and gives what the transcript says of it.
    pub fn carry_out_line(&mut self, line: &[u8]) -> Vec<u8> {
        let words = words_of(line);
        if words.is_empty() || words[0][0] == b'#' {
            return Vec::new();
        }
        let mut lines = b"> ".to_vec();
        lines.extend(words.join(&b' '));
        lines.push(b'\n');
        match self.carry_out(&words) {
            Ok(answer) => lines.extend(answer.bytes()),
            Err(complaint) => lines.extend(format!("? {complaint}").bytes()),
        }
        lines.push(b'\n');
        lines
    }

    fn carry_out(&mut self, words: &[&[u8]]) -> Answer {
        let rest = &words[1..];
        match words[0] {
            b"image" => self.image(rest),
            b"poke" => self.poke(rest),
            b"write" => self.write(rest),
            b"unsound" => self.unsound(rest),
            b"block" => self.block(rest),
            b"digest" => self.digest(rest),
            b"format" => self.format(rest),
            b"start" => self.start(rest),
            b"serve" => self.serve(rest),
            b"serve-in" => self.serve_in(rest),
            b"tick" => self.tick(rest),
            b"ticks" => self.ticks(rest),
            b"energy" => self.energy(rest),
            b"stop" => self.stop(rest),
            b"clock" => self.clock(rest),
            b"second" => second(rest),
            b"moment" => moment(rest),
            _ => Err(MALFORMED),
        }
    }

    fn cold(&mut self) -> Result<&mut Image, Complaint> {
        match &mut self.state {
            State::Nothing => Err(NO_IMAGE),
            State::Cold(image) => Ok(image),
            State::Started(_) => Err(NOT_COLD),
        }
    }

    fn started(&mut self) -> Result<&mut Meter, Complaint> {
        match &mut self.state {
            State::Started(meter) => Ok(meter),
            _ => Err(NOT_STARTED),
        }
    }

    /// The image, cold or started.
    fn any_image(&self) -> Result<&Image, Complaint> {
        match &self.state {
            State::Nothing => Err(NO_IMAGE),
            State::Cold(image) => Ok(image),
            State::Started(meter) => Ok(&meter.image),
        }
    }

    fn image(&mut self, words: &[&[u8]]) -> Answer {
        let [make, length] = exactly(words)?;
        let make = match make {
            b"bare" => Make::Bare,
            b"checked" => Make::Checked,
            _ => return Err(MALFORMED),
        };
        let image = Image::new(make, number(length, MOST_BYTES)? as usize);
        let answer = format!("image: {} blocks", image.size());
        self.state = State::Cold(image);
        Ok(answer)
    }

    fn poke(&mut self, words: &[&[u8]]) -> Answer {
        let (offset, rest) = words.split_first().ok_or(MALFORMED)?;
        let offset = number(offset, u32::MAX)? as usize;
        let bytes = hex(rest)?;
        if bytes.is_empty() {
            return Err(MALFORMED);
        }
        let image = self.cold()?;
        if offset + bytes.len() > image.bytes.len() {
            return Err("that lies outside the image");
        }
        image.bytes[offset..offset + bytes.len()].copy_from_slice(&bytes);
        Ok(format!("poked {}", bytes.len()))
    }

    fn write(&mut self, words: &[&[u8]]) -> Answer {
        let (block, rest) = words.split_first().ok_or(MALFORMED)?;
        let block = number(block, u32::MAX)? as usize;
        let mut content = hex(rest)?;
        if content.len() > CONTENT {
            return Err(MALFORMED);
        }
        content.resize(CONTENT, 0);
        match self.cold()?.write(block, &content) {
            Ok(()) => Ok(format!("write {block}: ok")),
            Err(_) => Ok(format!("write {block}: refused")),
        }
    }

    fn unsound(&mut self, words: &[&[u8]]) -> Answer {
        let [below] = exactly(words)?;
        let below = number(below, u32::MAX)? as usize;
        match self.any_image()?.lowest_corrupt(below) {
            Some(block) => Ok(format!("unsound: {block}")),
            None => Ok("unsound: none".to_string()),
        }
    }

    fn block(&mut self, words: &[&[u8]]) -> Answer {
        let [block] = exactly(words)?;
        let block = number(block, u32::MAX)? as usize;
        match self.any_image()?.read(block) {
            Ok(content) => Ok(format!("block {block}: {}", shown(content))),
            Err(_) => Ok(format!("block {block}: refused")),
        }
    }

    fn digest(&mut self, words: &[&[u8]]) -> Answer {
        let [] = exactly(words)?;
        Ok(format!("digest: {:016x}", digest_of(&self.any_image()?.bytes)))
    }

    fn format(&mut self, words: &[&[u8]]) -> Answer {
        let [] = exactly(words)?;
        let result = meter::format(self.cold()?);
        Ok(format!("format: {}", ok_or_refused(result)))
    }

    fn start(&mut self, words: &[&[u8]]) -> Answer {
        let [second] = exactly(words)?;
        let second = number(second, u32::MAX)?;
        self.cold()?;
        let State::Cold(image) = std::mem::replace(&mut self.state, State::Nothing) else {
            return Err(NOT_COLD);
        };
        match meter::start(image, second) {
            Ok(meter) => {
                self.state = State::Started(meter);
                Ok("start: ok".to_string())
            }
            Err((image, refusal)) => {
                self.state = State::Cold(image);
                Ok(format!("start: {}", told(refusal)))
            }
        }
    }

    fn serve(&mut self, words: &[&[u8]]) -> Answer {
        let (key, request) = words.split_first().ok_or(MALFORMED)?;
        let key = number(key, 255)? as u8;
        let request = hex(request)?;
        let mut answer = vec![FILLER; 1028];
        let mut scratch = vec![FILLER; 510];
        let result = self.started()?.serve(key, &request, &mut answer, &mut scratch);
        Ok(format!("serve: {}", served(result, &answer)))
    }

    fn serve_in(&mut self, words: &[&[u8]]) -> Answer {
        if words.len() < 3 {
            return Err(MALFORMED);
        }
        let mut answer = vec![FILLER; number(words[0], MOST_BUFFER)? as usize];
        let mut scratch = vec![FILLER; number(words[1], MOST_BUFFER)? as usize];
        let key = number(words[2], 255)? as u8;
        let request = hex(&words[3..])?;
        let result = self.started()?.serve(key, &request, &mut answer, &mut scratch);
        Ok(format!("serve: {}\n{}", served(result, &answer), buffers(result, &answer, &scratch)))
    }

    fn tick(&mut self, words: &[&[u8]]) -> Answer {
        let [] = exactly(words)?;
        let result = self.started()?.tick();
        Ok(format!("tick: {}", ok_or_refused(result)))
    }

    fn ticks(&mut self, words: &[&[u8]]) -> Answer {
        let [count] = exactly(words)?;
        let count = number(count, MOST_TICKS)?;
        let meter = self.started()?;
        for accepted in 0..count {
            if let Err(refusal) = meter.tick() {
                return Ok(format!("ticks: {accepted} ok, then {}", told(refusal)));
            }
        }
        Ok(format!("ticks: {count} ok"))
    }

    fn energy(&mut self, words: &[&[u8]]) -> Answer {
        let [watt_hours] = exactly(words)?;
        let watt_hours = number(watt_hours, u32::MAX)?;
        let result = self.started()?.energy(watt_hours);
        Ok(format!("energy: {}", ok_or_refused(result)))
    }

    fn stop(&mut self, words: &[&[u8]]) -> Answer {
        let [] = exactly(words)?;
        self.started()?;
        if let State::Started(meter) = std::mem::replace(&mut self.state, State::Nothing) {
            self.state = State::Cold(meter.stop());
        }
        Ok("stop: ok".to_string())
    }

    fn clock(&mut self, words: &[&[u8]]) -> Answer {
        let [] = exactly(words)?;
        let clock = self.started()?.clock;
        Ok(format!("clock: {clock} {}", shown_moment(clock)))
    }
}

impl Default for Session {
    fn default() -> Session {
        Session::new()
    }
}

fn second(words: &[&[u8]]) -> Answer {
    let fields: [&[u8]; 6] = exactly(words)?;
    let mut moment = [0; 6];
    for i in 0..6 {
        moment[i] = number(fields[i], 255)? as u8;
    }
    match second_of(moment) {
        Some(second) => Ok(format!("second: {second}")),
        None => Ok("second: none".to_string()),
    }
}

fn moment(words: &[&[u8]]) -> Answer {
    let [second] = exactly(words)?;
    let second = number(second, u32::MAX)?;
    Ok(format!("moment: {}", shown_moment(second)))
}

// What is read.

fn exactly<'a, const N: usize>(words: &[&'a [u8]]) -> Result<[&'a [u8]; N], Complaint> {
    <[&[u8]; N]>::try_from(words).map_err(|_| MALFORMED)
}

fn number(word: &[u8], most: u32) -> Result<u32, Complaint> {
    let mut value: u64 = 0;
    for digit in word {
        if !digit.is_ascii_digit() {
            return Err(MALFORMED);
        }
        value = value * 10 + u64::from(digit - b'0');
        if value > u64::from(most) {
            return Err(MALFORMED);
        }
    }
    Ok(value as u32)
}

/// The digits of all words are joined.
fn hex(words: &[&[u8]]) -> Result<Vec<u8>, Complaint> {
    let mut digits = Vec::new();
    for byte in words.concat() {
        digits.push(char::from(byte).to_digit(16).ok_or(MALFORMED)? as u8);
    }
    if digits.len() % 2 == 1 {
        return Err(MALFORMED);
    }
    Ok(digits.chunks(2).map(|pair| pair[0] * 16 + pair[1]).collect())
}

// What is shown.

fn shown(bytes: &[u8]) -> String {
    let bytes: Vec<String> = bytes.iter().map(|byte| format!("{byte:02X}")).collect();
    bytes.join(" ")
}

fn shown_moment(second: u32) -> String {
    match moment_of(second) {
        Some([year, month, day, hour, minute, rest]) => {
            let year = 2000 + u32::from(year);
            let weekday = weekday_of(second);
            format!("{year}-{month:02}-{day:02} {hour:02}:{minute:02}:{rest:02} {weekday}")
        }
        None => "none".to_string(),
    }
}

fn told(refusal: Refusal) -> String {
    format!("refused {} place {} layer {}", refusal.cause(), refusal.place(), refusal.layer())
}

fn ok_or_refused(result: Result<(), Refusal>) -> String {
    match result {
        Ok(()) => "ok".to_string(),
        Err(refusal) => told(refusal),
    }
}

fn served(result: Result<usize, Refusal>, answer: &[u8]) -> String {
    match result {
        Ok(length) => shown(&answer[..length]),
        Err(refusal @ Refusal::ShortBuffer(_)) => format!("{} code none", told(refusal)),
        Err(refusal) => format!("{} code {:02X}", told(refusal), answer[0]),
    }
}

/// What became of the two buffers, which were full of the filler.
fn buffers(result: Result<usize, Refusal>, answer: &[u8], scratch: &[u8]) -> String {
    let used = match result {
        Ok(length) => length,
        Err(Refusal::ShortBuffer(_)) => 0,
        Err(_) => 1,
    };
    let (front, tail) = scratch.split_at(scratch.len().min(510));
    let front = if is_all(front, FILLER) {
        "untouched"
    } else if is_all(front, 0) {
        "zeroed"
    } else {
        "other"
    };
    let kept = |bytes: &[u8]| if is_all(bytes, FILLER) { "ok" } else { "changed" };
    format!("buffers: answer-tail {}, scratch {front}, scratch-tail {}", kept(&answer[used..]), kept(tail))
}

fn is_all(bytes: &[u8], value: u8) -> bool {
    bytes.iter().all(|byte| *byte == value)
}

pub fn digest_of(bytes: &[u8]) -> u64 {
    bytes.iter().fold(14_695_981_039_346_656_037, |digest: u64, byte| (digest ^ u64::from(*byte)).wrapping_mul(1_099_511_628_211))
}
