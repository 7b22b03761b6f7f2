//! Images with something wrong in them.

use super::rng::Rng;
use crate::image::{seal, BLOCK_BYTES, BLOCK_WORDS, MAX_BLOCKS};

/// Damages a sound image. Now and then the damage is none, or is undone by chance.
pub fn damaged(rng: &mut Rng, mut bytes: Vec<u8>) -> Vec<u8> {
    if rng.chance(15) {
        damage_length(rng, &mut bytes);
        return bytes;
    }
    for _ in 0..rng.between(1, 2) {
        damage_block(rng, &mut bytes);
    }
    bytes
}

/// Leaves a length that is wrong, or one block too few.
fn damage_length(rng: &mut Rng, bytes: &mut Vec<u8>) {
    match rng.below(6) {
        0 => bytes.clear(),
        1 => bytes.truncate(rng.below(bytes.len() as u32) as usize),
        2 => bytes.truncate(bytes.len() - BLOCK_BYTES),
        3 => bytes.extend((0..rng.between(1, 600)).map(|byte| byte as u8)),
        4 => bytes.resize((MAX_BLOCKS + rng.between(0, 1) as usize) * BLOCK_BYTES, 0),
        _ => bytes.resize(MAX_BLOCKS * BLOCK_BYTES + rng.between(1, 3) as usize, 0),
    }
}

/// Damages one block, and repairs its check word or not.
fn damage_block(rng: &mut Rng, bytes: &mut [u8]) {
    let blocks = bytes.len() / BLOCK_BYTES;
    let place = rng.below(blocks as u32) as usize;
    let block = &mut bytes[place * BLOCK_BYTES..][..BLOCK_BYTES];
    match rng.below(6) {
        0 => flip_bit(rng, block),
        1 | 2 => damage_count(rng, block),
        3 => damage_place(rng, block),
        4 => damage_filler(rng, block),
        _ => swap_words(rng, block),
    }
    if rng.chance(75) {
        seal(block);
    }
}

fn flip_bit(rng: &mut Rng, block: &mut [u8]) {
    let byte = rng.below(BLOCK_BYTES as u32) as usize;
    block[byte] ^= 1 << rng.below(8);
}

/// A count near the right one stays allowed in the last block, and may bare filler that is not 0.
fn damage_count(rng: &mut Rng, block: &mut [u8]) {
    let count = u16::from_le_bytes([block[2], block[3]]);
    let wrong = match rng.below(7) {
        0 => 0,
        1 => BLOCK_WORDS as u16 - 1,
        2 => BLOCK_WORDS as u16 + 1,
        3 => count + 256,
        4 => count - 1,
        5 => count + 1,
        _ => rng.below(1 << 16) as u16,
    };
    block[2..4].copy_from_slice(&wrong.to_le_bytes());
}

fn damage_place(rng: &mut Rng, block: &mut [u8]) {
    let place = u16::from_le_bytes([block[0], block[1]]);
    let wrong = match rng.below(4) {
        0 => place ^ 1,
        1 => place + 1,
        2 => place + 256,
        _ => rng.below(1 << 16) as u16,
    };
    block[0..2].copy_from_slice(&wrong.to_le_bytes());
}

/// Changes a byte of the filler, or of the check word if there is no filler.
fn damage_filler(rng: &mut Rng, block: &mut [u8]) {
    let count = u16::from_le_bytes([block[2], block[3]]) as u32;
    let first = 4 + 4 * count.min(BLOCK_WORDS as u32);
    let last = if rng.chance(20) { first } else { BLOCK_BYTES as u32 - 5 };
    let byte = rng.between(first, last.max(first)) as usize;
    block[byte] = block[byte].wrapping_add(rng.between(1, 255) as u8);
}

/// Leaves the sum as it was.
fn swap_words(rng: &mut Rng, block: &mut [u8]) {
    let (one, other) = (4 * rng.below(128) as usize, 4 * rng.below(128) as usize);
    for byte in 0..4 {
        block.swap(one + byte, other + byte);
    }
}
