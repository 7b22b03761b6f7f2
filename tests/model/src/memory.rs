//! The program store and the data memory (`docs/memories.md`).
//!
//! Only the two makes that the programs need are here. Both start at address 0, and the data bank is writable as a
//! whole, so the cause 12, *read-only*, does not come up.

/// Why a memory refuses an access. The values are the numbers that users see.
#[derive(Clone, Copy, Debug, PartialEq, Eq)]
pub enum Cause {
    Unaligned = 10,
    Unmapped = 11,
}

/// A refused access: the cause, the address that was asked, and its tag.
#[derive(Clone, Copy, Debug, PartialEq, Eq)]
pub struct Fault {
    pub cause: Cause,
    pub address: u32,
    pub tag: u8,
}

/// Finds the place of an address among `count` words that stand from address 0 on.
#[inline]
pub fn locate(address: u32, count: usize, tag: u8) -> Result<usize, Fault> {
    let place = (address / 4) as usize;
    if address % 4 != 0 {
        Err(Fault { cause: Cause::Unaligned, address, tag })
    } else if place >= count {
        Err(Fault { cause: Cause::Unmapped, address, tag })
    } else {
        Ok(place)
    }
}

/// The words of an image, to be read only.
#[derive(Clone, Copy, Debug)]
pub struct ImageStore<'w> {
    words: &'w [u32],
    tag: u8,
}

impl<'w> ImageStore<'w> {
    pub fn new(words: &'w [u32], tag: u8) -> ImageStore<'w> {
        ImageStore { words, tag }
    }

    pub fn read(&self, address: u32) -> Result<u32, Fault> {
        locate(address, self.words.len(), self.tag).map(|place| self.words[place])
    }
}

/// Data words, all of them writable.
#[derive(Clone, Debug, PartialEq, Eq)]
pub struct Bank {
    words: Vec<u32>,
    tag: u8,
}

impl Bank {
    pub fn new(words: Vec<u32>, tag: u8) -> Bank {
        Bank { words, tag }
    }

    #[inline]
    pub fn read(&self, address: u32) -> Result<u32, Fault> {
        locate(address, self.words.len(), self.tag).map(|place| self.words[place])
    }

    #[inline]
    pub fn write(&mut self, address: u32, word: u32) -> Result<(), Fault> {
        locate(address, self.words.len(), self.tag).map(|place| self.words[place] = word)
    }

    pub fn words(&self) -> &[u32] {
        &self.words
    }
}
