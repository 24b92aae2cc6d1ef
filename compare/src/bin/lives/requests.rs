//! Requests as bytes: right ones, and ways to spoil them.

use crate::random::Random;
use compare::bytes::check_of;

pub fn full_read(table: u16) -> Vec<u8> {
    let mut request = vec![0x30];
    request.extend(table.to_be_bytes());
    request
}

pub fn partial_read(table: u16, offset: u32, count: u16) -> Vec<u8> {
    let mut request = vec![0x3F];
    request.extend(part(table, offset, count));
    request
}

pub fn full_write(table: u16, data: &[u8]) -> Vec<u8> {
    let mut request = vec![0x40];
    request.extend(table.to_be_bytes());
    request.extend((data.len() as u16).to_be_bytes());
    request.extend(checked(data));
    request
}

pub fn partial_write(table: u16, offset: u32, data: &[u8]) -> Vec<u8> {
    let mut request = vec![0x4F];
    request.extend(part(table, offset, data.len() as u16));
    request.extend(checked(data));
    request
}

fn part(table: u16, offset: u32, count: u16) -> Vec<u8> {
    let mut bytes = table.to_be_bytes().to_vec();
    bytes.extend(&offset.to_be_bytes()[1..]);
    bytes.extend(count.to_be_bytes());
    bytes
}

fn checked(data: &[u8]) -> Vec<u8> {
    let mut bytes = data.to_vec();
    bytes.push(check_of(data));
    bytes
}

/// The request with something wrong in it, as a line or a careless sender would have it.
pub fn spoiled(random: &mut Random, mut request: Vec<u8>) -> Vec<u8> {
    let place = random.below(request.len() as u32) as usize;
    match random.below(7) {
        0 => request.truncate(place),
        1 => request.push(random.byte()),
        2 => request[place] ^= 1 << random.below(8),
        3 => request[place] = random.byte(),
        4 => request[0] = random.byte(),
        5 => {
            request.pop();
        }
        _ => request.extend(random.bytes(place + 1)),
    }
    request
}

pub fn random_bytes(random: &mut Random) -> Vec<u8> {
    let count = random.weighted(&[(1, 0), (4, 3), (4, 8), (4, 20), (1, 600)]);
    let count = random.below(count + 1) as usize;
    let mut request = random.bytes(count);
    if !request.is_empty() && random.chance(70) {
        request[0] = random.pick(&[0x30, 0x3F, 0x40, 0x4F]);
    }
    request
}
