//! Words to blocks: block numbers and sums, and new sums for damaged blocks.
//!
//! Document 01, "Blocks and the rule stream": "A file is 1 to 64 blocks of 512 bytes: bytes 0-1 the block's
//! number from 0, byte 2 sum A, byte 3 sum B, bytes 4-511 content." The sums are computed here step by step
//! as that paragraph says; the plain reader has a faster form of its own, so that a mistake in one does not
//! hide the same mistake in the other.

/// Bytes of a block and of its header, and words of its content.
pub const BLOCK_BYTES: usize = 512;
pub const HEADER_BYTES: usize = 4;
pub const CONTENT_WORDS: usize = 254;

/// The most blocks that a file may have.
pub const MOST_BLOCKS: usize = 64;

/// Words of the longest stream.
pub const MOST_WORDS: usize = MOST_BLOCKS * CONTENT_WORDS;

/// Sums A and B of one block: over bytes 0, 1, 4 to 511 in order, A = (A + byte) mod 255, then B = (B +
/// A) mod 255.
pub fn sums(block: &[u8]) -> (u8, u8) {
    let (mut a, mut b) = (0u16, 0u16);
    for &byte in block[..2].iter().chain(&block[HEADER_BYTES..]) {
        a = (a + u16::from(byte)) % 255;
        b = (b + a) % 255;
    }
    (a as u8, b as u8)
}

/// The least number of blocks that holds n words.
pub fn blocks_for(words: usize) -> usize {
    words.div_ceil(CONTENT_WORDS)
}

/// The words as content of as few blocks as hold them.
pub fn file_of(words: &[u16]) -> Vec<u8> {
    file_in(words, blocks_for(words.len()))
}

/// The words as content of the given number of blocks, with zeros after them; words that do not fit are
/// dropped.
pub fn file_in(words: &[u16], blocks: usize) -> Vec<u8> {
    let mut file = vec![0u8; blocks * BLOCK_BYTES];
    for (number, block) in file.chunks_exact_mut(BLOCK_BYTES).enumerate() {
        block[..2].copy_from_slice(&(number as u16).to_le_bytes());
        let from = (number * CONTENT_WORDS).min(words.len());
        let content = block[HEADER_BYTES..].chunks_exact_mut(2);
        for (place, word) in content.zip(&words[from..]) {
            place.copy_from_slice(&word.to_le_bytes());
        }
    }
    repair(&mut file);
    file
}

/// Gives every whole block the right sums for its bytes. Block numbers are not changed.
pub fn repair(file: &mut [u8]) {
    for block in file.chunks_exact_mut(BLOCK_BYTES) {
        let (a, b) = sums(block);
        block[2] = a;
        block[3] = b;
    }
}

/// The offset in the file of the low byte of stream word n.
pub fn byte_of_word(word: usize) -> usize {
    word / CONTENT_WORDS * BLOCK_BYTES + HEADER_BYTES + word % CONTENT_WORDS * 2
}
