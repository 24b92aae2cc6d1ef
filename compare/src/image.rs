//! Memory images: bytes in which blocks of 510 bytes lie, bare or with a checksum.

use crate::bytes::little16;
use crate::refusal::Refusal;

pub const CONTENT: usize = 510;
/// The blocks that a meter needs.
pub const NEEDED: usize = 27;
const MOST_BLOCKS: usize = 4096;

#[derive(Clone, Copy, PartialEq, Eq, Debug)]
pub enum Make {
    Bare,
    Checked,
}

#[derive(Clone)]
pub struct Image {
    pub make: Make,
    pub bytes: Vec<u8>,
}

impl Image {
    pub fn new(make: Make, length: usize) -> Image {
        Image { make, bytes: vec![0; length] }
    }

    /// The bytes that a block takes in the image.
    pub fn stride(&self) -> usize {
        match self.make {
            Make::Bare => CONTENT,
            Make::Checked => CONTENT + 2,
        }
    }

    pub fn size(&self) -> usize {
        (self.bytes.len() / self.stride()).min(MOST_BLOCKS)
    }

    fn content(&self, block: usize) -> &[u8] {
        let place = block * self.stride();
        &self.bytes[place..place + CONTENT]
    }

    pub fn is_corrupt(&self, block: usize) -> bool {
        match self.make {
            Make::Bare => false,
            Make::Checked => {
                let place = block * self.stride() + CONTENT;
                u32::from(little16(&self.bytes[place..])) != checksum(block, self.content(block))
            }
        }
    }

    pub fn lowest_corrupt(&self, below: usize) -> Option<usize> {
        (0..below.min(self.size())).find(|block| self.is_corrupt(*block))
    }

    pub fn read(&self, block: usize) -> Result<&[u8], Refusal> {
        if block >= self.size() {
            return Err(Refusal::TooSmall(self.size()));
        }
        if self.is_corrupt(block) {
            return Err(Refusal::Corrupt(block));
        }
        Ok(self.content(block))
    }

    pub fn write(&mut self, block: usize, content: &[u8]) -> Result<(), Refusal> {
        if block >= self.size() {
            return Err(Refusal::TooSmall(self.size()));
        }
        let place = block * self.stride();
        self.bytes[place..place + CONTENT].copy_from_slice(content);
        if self.make == Make::Checked {
            let check = checksum(block, content) as u16;
            self.bytes[place + CONTENT..place + CONTENT + 2].copy_from_slice(&check.to_le_bytes());
        }
        Ok(())
    }

    pub fn check_size(&self) -> Result<(), Refusal> {
        if self.size() < NEEDED {
            return Err(Refusal::TooSmall(self.size()));
        }
        Ok(())
    }

    /// Whether the blocks that a meter needs are there and sound.
    pub fn check_ready(&self) -> Result<(), Refusal> {
        self.check_size()?;
        match self.lowest_corrupt(NEEDED) {
            Some(block) => Err(Refusal::Corrupt(block)),
            None => Ok(()),
        }
    }

    /// A block of a memory that was found ready.
    pub fn load(&self, block: usize) -> Vec<u8> {
        self.content(block).to_vec()
    }

    /// Changes some bytes of a block, in a memory that was found ready.
    pub fn change(&mut self, block: usize, place: usize, new: &[u8]) {
        let mut content = self.load(block);
        crate::bytes::patch(&mut content, place, new);
        self.write(block, &content).expect("the memory is ready");
    }
}

/// The position-weighted sum. It is far below 2^32, so that nothing wraps.
pub fn checksum(block: usize, content: &[u8]) -> u32 {
    let mut sum = block as u32 + 1;
    for (byte, weight) in content.iter().zip(1u32..) {
        sum = sum.wrapping_add(weight.wrapping_mul(u32::from(*byte)));
    }
    sum % 65_521
}
