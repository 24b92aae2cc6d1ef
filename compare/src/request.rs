//! Requests as bytes.

use crate::bytes::{big, check_of};
use crate::refusal::Refusal;

#[derive(Clone, Copy, PartialEq, Eq, Debug)]
pub enum Service {
    FullRead,
    PartialRead,
    FullWrite,
    PartialWrite,
}

/// What is asked for. Full services have the offset 0, and a full read has the count 0; reads have no data.
#[derive(Clone, PartialEq, Eq, Debug)]
pub struct Request {
    pub service: Service,
    pub table: u16,
    pub offset: usize,
    pub count: usize,
    pub data: Vec<u8>,
}

impl Request {
    pub fn is_read(&self) -> bool {
        matches!(self.service, Service::FullRead | Service::PartialRead)
    }

    pub fn is_partial(&self) -> bool {
        matches!(self.service, Service::PartialRead | Service::PartialWrite)
    }
}

fn service_of(byte: u8) -> Result<Service, Refusal> {
    match byte {
        0x30 => Ok(Service::FullRead),
        0x3F => Ok(Service::PartialRead),
        0x40 => Ok(Service::FullWrite),
        0x4F => Ok(Service::PartialWrite),
        _ => Err(Refusal::UnknownService),
    }
}

pub fn parse(bytes: &[u8]) -> Result<Request, Refusal> {
    let first = *bytes.first().ok_or(Refusal::Malformed)?;
    let service = service_of(first)?;
    let fields = match service {
        Service::FullRead => 3,
        Service::PartialRead | Service::PartialWrite => 8,
        Service::FullWrite => 5,
    };
    if bytes.len() < fields {
        return Err(Refusal::Malformed);
    }
    let mut request = Request { service, table: big(&bytes[1..3]) as u16, offset: 0, count: 0, data: Vec::new() };
    if request.is_partial() {
        request.offset = big(&bytes[3..6]) as usize;
    }
    if service != Service::FullRead {
        request.count = big(&bytes[fields - 2..fields]) as usize;
    }
    let rest = &bytes[fields..];
    if request.is_read() {
        if !rest.is_empty() {
            return Err(Refusal::Malformed);
        }
        return Ok(request);
    }
    if rest.len() != request.count + 1 || check_of(rest) != 0 {
        return Err(Refusal::Malformed);
    }
    request.data = rest[..request.count].to_vec();
    Ok(request)
}

/// The answer to a read.
pub fn read_answer(data: &[u8]) -> Vec<u8> {
    let mut answer = vec![0];
    answer.extend((data.len() as u16).to_be_bytes());
    answer.extend(data);
    answer.push(check_of(data));
    answer
}
