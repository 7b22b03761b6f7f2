//! Opening a program image (`docs/image.md`).

/// The bytes of a block.
pub const BLOCK_BYTES: usize = 512;
/// The most blocks that an image can have.
pub const MAX_BLOCKS: usize = 64;
/// The words of a block that can belong to the routine.
pub const BLOCK_WORDS: usize = 126;

/// Why an image is refused. The values are the numbers that users see.
#[derive(Clone, Copy, Debug, PartialEq, Eq)]
pub enum Reason {
    Length = 1,
    Check = 2,
    Place = 3,
    Count = 4,
    Filler = 5,
}

/// A refusal, with the place of the block at fault.
#[derive(Clone, Copy, Debug, PartialEq, Eq)]
pub struct Refusal {
    pub reason: Reason,
    pub place: usize,
}

impl Refusal {
    pub fn number(&self) -> u32 {
        self.reason as u32
    }
}

/// Answers the words of the routine, or the earliest fault.
pub fn open(bytes: &[u8]) -> Result<Vec<u32>, Refusal> {
    let blocks = bytes.len() / BLOCK_BYTES;
    if bytes.len() % BLOCK_BYTES != 0 || blocks == 0 || blocks > MAX_BLOCKS {
        return Err(Refusal { reason: Reason::Length, place: 0 });
    }
    let mut routine = Vec::with_capacity(blocks * BLOCK_WORDS);
    for (place, block) in bytes.chunks_exact(BLOCK_BYTES).enumerate() {
        let words = words_of(block);
        let count = check_block(&words, place, place + 1 == blocks).map_err(|reason| Refusal { reason, place })?;
        routine.extend_from_slice(&words[1..=count]);
    }
    Ok(routine)
}

/// Answers the count of a sound block, or what is wrong with it first.
fn check_block(words: &[u32], place: usize, last: bool) -> Result<usize, Reason> {
    if sum(words) != u32::MAX {
        return Err(Reason::Check);
    }
    let named_place = (words[0] & 0xFFFF) as usize;
    let count = (words[0] >> 16) as usize;
    if named_place != place {
        return Err(Reason::Place);
    }
    let least = if last { 1 } else { BLOCK_WORDS };
    if count < least || count > BLOCK_WORDS {
        return Err(Reason::Count);
    }
    if words[1 + count..=BLOCK_WORDS].iter().any(|&word| word != 0) {
        return Err(Reason::Filler);
    }
    Ok(count)
}

/// Makes the image of a routine.
///
/// # Panics
///
/// If the routine is empty or does not fit into 64 blocks.
pub fn pack(routine: &[u32]) -> Vec<u8> {
    assert!(!routine.is_empty() && routine.len() <= MAX_BLOCKS * BLOCK_WORDS, "no image has {} words", routine.len());
    let mut bytes = Vec::new();
    for (place, counted) in routine.chunks(BLOCK_WORDS).enumerate() {
        let mut block = [0; BLOCK_BYTES];
        block[0..2].copy_from_slice(&(place as u16).to_le_bytes());
        block[2..4].copy_from_slice(&(counted.len() as u16).to_le_bytes());
        for (room, word) in block[4..].chunks_exact_mut(4).zip(counted) {
            room.copy_from_slice(&word.to_le_bytes());
        }
        seal(&mut block);
        bytes.extend_from_slice(&block);
    }
    bytes
}

/// Sets the check word of a block, so that it adds up.
pub fn seal(block: &mut [u8]) {
    let end = BLOCK_BYTES - 4;
    let check = u32::MAX.wrapping_sub(sum(&words_of(&block[..end])));
    block[end..].copy_from_slice(&check.to_le_bytes());
}

fn words_of(bytes: &[u8]) -> Vec<u32> {
    bytes.chunks_exact(4).map(|b| u32::from_le_bytes([b[0], b[1], b[2], b[3]])).collect()
}

fn sum(words: &[u32]) -> u32 {
    words.iter().fold(0, |sum, &word| sum.wrapping_add(word))
}
