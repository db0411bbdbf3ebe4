//! Damaged, shortened and random bytes: refusals 1 and 2, and, by correcting the sums afterwards, all later
//! refusals.
//!
//! Document 01, "Blocks and the rule stream": lengths, block numbers and sums; and the table's order, 1
//! before 2 before 3 before all faults of the stream.

use super::random::Random;
use super::roles::marked;
use super::well_formed::{rule_set, SHAPES};
use super::{clauses, full, Case, Expected, Taker};
use crate::blocks::{byte_of_word, file_in, file_of, repair, sums, BLOCK_BYTES, HEADER_BYTES, MOST_BLOCKS};
use crate::examples;
use crate::refusal::{BLOCK, EDITION, FORM, LENGTH};
use crate::rules::RuleSet;

pub fn cases(rounds: usize, take: Taker) {
    let mut random = Random::new(11);
    lengths(&mut random, take);
    truncations(&full::rules().file(), 4001, take);
    truncations(&examples::library(2, 2, 2).file(), 37, take);
    truncations(&rule_set(&mut Random::new(5), SHAPES[4]).file(), 509, take);
    each_byte_damaged(&examples::key_cabinet(2).file(), take);
    headers(&full::rules().file(), take);
    uncounted_change(take);
    earlier_refusals_first(take);
    for _ in 0..40 * rounds {
        let rules = some_rules(&mut random);
        damaged(&mut random, &rules, take);
        repaired(&mut random, &rules, take);
        reworded(&mut random, &rules, take);
    }
    random_streams(&mut random, 1500 * rounds, take);
}

fn some_rules(random: &mut Random) -> RuleSet {
    match random.below(8) {
        0 => examples::key_cabinet(2),
        1 => examples::library(2, 2, 2),
        2 => clauses::base(),
        _ => {
            let shape = *random.pick(&SHAPES[..5]);
            rule_set(random, shape)
        }
    }
}

fn whole_blocks(bytes: usize) -> bool {
    bytes.is_multiple_of(BLOCK_BYTES) && (1..=MOST_BLOCKS).contains(&(bytes / BLOCK_BYTES))
}

/// Zeros and random bytes of many lengths. That a random block has right sums is as likely as 1 in 2^32.
fn lengths(random: &mut Random, take: Taker) {
    let near = |blocks: usize| [-2, -1, 0, 1, 2].map(|offset| (blocks * BLOCK_BYTES) as isize + offset);
    let lengths = [0, 1, 2, 3, 8, 63, 64, 65, 128].into_iter().flat_map(near).filter(|&length| length >= 0);
    let more: Vec<isize> = (0..200).map(|_| random.below(70 * BLOCK_BYTES) as isize).collect();
    for length in lengths.chain(more) {
        let length = length as usize;
        let bytes: Vec<u8> = (0..length).map(|_| random.number() as u8).collect();
        let wrong_length = Expected::Refused(LENGTH);
        let expected = if whole_blocks(length) { Expected::Refused(BLOCK) } else { wrong_length };
        take(Case::new(format!("{length} random bytes"), bytes, expected));
        let expected = match (whole_blocks(length), length / BLOCK_BYTES) {
            (false, _) => wrong_length,
            // A block of zeros has the right number and the right sums.
            (true, 1) => Expected::Refused(EDITION),
            (true, _) => Expected::Refused(BLOCK),
        };
        take(Case::new(format!("{length} zero bytes"), vec![0; length], expected));
    }
    let words = examples::key_cabinet(2).stream();
    for blocks in [65, 66, 128, 256] {
        take(Case::new(format!("{blocks} right blocks"), file_in(&words, blocks), Expected::Refused(LENGTH)));
    }
}

/// The file cut after every multiple of `step` bytes and after every block, where only the count of blocks
/// (word 1) is wrong.
fn truncations(file: &[u8], step: usize, take: Taker) {
    let whole = (0..file.len()).step_by(BLOCK_BYTES);
    for length in (0..file.len()).step_by(step).chain(whole) {
        let expected = if whole_blocks(length) { EDITION } else { LENGTH };
        take(Case::new(
            format!("cut to {length} bytes"),
            file[..length].to_vec(),
            Expected::Refused(expected),
        ));
    }
    for extra in [1, 2, 511, 512] {
        let mut longer = file.to_vec();
        longer.resize(file.len() + extra, 0);
        let expected = if whole_blocks(longer.len()) { BLOCK } else { LENGTH };
        take(Case::new(format!("{extra} bytes too many"), longer, Expected::Refused(expected)));
    }
}

/// Each byte of the file in turn changed. The sums do not detect a change from 0 to 255 or back.
fn each_byte_damaged(file: &[u8], take: Taker) {
    for at in 0..file.len() {
        for change in [1, 2, 128, 254] {
            let mut bytes = file.to_vec();
            bytes[at] = bytes[at].wrapping_add(change);
            let seen = at < HEADER_BYTES || u16::from(bytes[at]).abs_diff(u16::from(file[at])) != 255;
            let expected = if seen { Expected::Refused(BLOCK) } else { Expected::Open };
            take(Case::new(format!("byte {at} changed by {change}"), bytes, expected));
        }
    }
}

/// Wrong block numbers and wrong sums, one kind at a time, in the first, a middle and the last block.
fn headers(file: &[u8], take: Taker) {
    let last = file.len() / BLOCK_BYTES - 1;
    for block in [0, last / 2, last] {
        let at = block * BLOCK_BYTES;
        let mut case = |name: &str, edit: &dyn Fn(&mut [u8])| {
            let mut bytes = file.to_vec();
            edit(&mut bytes[at..at + BLOCK_BYTES]);
            take(Case::new(format!("block {block}: {name}"), bytes, Expected::Refused(BLOCK)));
        };
        case("sum A wrong", &|block| block[2] = block[2].wrapping_add(1));
        case("sum B wrong", &|block| block[3] = block[3].wrapping_add(1));
        case("number one more, sums right", &|block| {
            block[0] += 1;
            repair(block);
        });
        case("number's high byte, sums right", &|block| {
            block[1] += 1;
            repair(block);
        });
        case("bytes swapped", &|block| {
            let place =
                (HEADER_BYTES..BLOCK_BYTES - 1).find(|&place| block[place] % 255 != block[place + 1] % 255);
            let place = place.expect("a block with two bytes");
            block.swap(place, place + 1);
        });
    }
    let mut swapped = file.to_vec();
    swapped[..2 * BLOCK_BYTES].rotate_left(BLOCK_BYTES);
    take(Case::new("two blocks swapped", swapped, Expected::Refused(BLOCK)));
    sums_of_255(take);
    large_sums(take);
}

/// A sum that is 0 modulo 255 is stored as 0; 255 in its place is refused.
fn sums_of_255(take: Taker) {
    let mut words = examples::key_cabinet(2).stream();
    words.resize(254, 0);
    for filler in 0..=255u16 {
        // The last word comes after the end of the stream, so that a filler other than 0 is refused 4, not 2.
        words[253] = filler << 8;
        let file = file_of(&words);
        for (place, sum) in [(2, sums(&file).0), (3, sums(&file).1)] {
            let right = if filler == 0 { Expected::Admitted } else { Expected::Refused(FORM) };
            take(Case::new(format!("sum {sum}"), file.clone(), right));
            if sum == 0 {
                let mut bytes = file.clone();
                bytes[place] = 255;
                take(Case::new("sum 0 stored as 255", bytes, Expected::Refused(BLOCK)));
            }
        }
    }
}

/// A block with number 0 whose sum B before the remainder is `sum`: each byte is as large as the rest of the
/// sum allows, and the last byte counts once.
fn block_with_sum(sum: usize) -> Vec<u8> {
    let mut block = vec![0; BLOCK_BYTES];
    let mut left = sum;
    for (place, byte) in block.iter_mut().enumerate().skip(HEADER_BYTES) {
        let times = BLOCK_BYTES - place;
        *byte = (left / times).min(255) as u8;
        left -= usize::from(*byte) * times;
    }
    assert_eq!(0, left, "no block has a sum of {sum}");
    repair(&mut block);
    block
}

/// Sums B around each power of two, up to the largest. A right block is refused 3, since its first word is
/// not 1; one whose stored sum is 1 more or less is refused 2.
fn large_sums(take: Taker) {
    let largest = 255 * (1..=BLOCK_BYTES - HEADER_BYTES).sum::<usize>();
    let powers = (11..=24).map(|power| 1 << power);
    for middle in powers.chain([largest]) {
        for sum in middle - 300..=(middle + 300).min(largest) {
            let block = block_with_sum(sum);
            for (change, refusal) in [(0, EDITION), (1, BLOCK), (255, BLOCK)] {
                let mut bytes = block.clone();
                bytes[3] = bytes[3].wrapping_add(change);
                take(Case::new(format!("sum B of {sum}, plus {change}"), bytes, Expected::Refused(refusal)));
            }
        }
    }
}

/// The sums do not distinguish 0 and 255. So a byte changed from one to the other passes refusal 2, and the
/// changed word is read.
fn uncounted_change(take: Taker) {
    for rules in [examples::key_cabinet(2), examples::library(2, 2, 2), clauses::base()] {
        let (file, stream) = (rules.file(), marked(&rules));
        for (word, entry) in stream.iter().enumerate().filter(|(_, entry)| entry.word == 0) {
            for high in [0, 1] {
                let mut bytes = file.clone();
                bytes[byte_of_word(word) + high] = 255;
                let read = if high == 0 { 255 } else { 255 << 8 };
                let fault = entry.role.faults(0).into_iter().find(|&(fault, _)| fault == read);
                let expected = fault.map_or(Expected::Open, |(_, refusal)| Expected::Refused(refusal));
                take(Case::new(format!("word {word} from 0 to {read}"), bytes, expected));
            }
        }
    }
}

/// Two faults of different rows of the table: the earlier row decides, wherever in the file the faults are.
fn earlier_refusals_first(take: Taker) {
    let mut words = full::rules().stream();
    let last = words.len() - 1;
    words[last] = 99; // refused 4, at the last word
    let mut case =
        |name: &str, bytes: Vec<u8>, refusal| take(Case::new(name, bytes, Expected::Refused(refusal)));
    case("form alone", file_of(&words), FORM);
    words[0] = 2;
    case("edition and form", file_of(&words), EDITION);
    words[0] = 1;
    words[1] = 63;
    case("count of blocks and form", file_of(&words), EDITION);
    let mut bytes = file_of(&words);
    *bytes.last_mut().expect("a file has bytes") ^= 1;
    case("block, edition and form", bytes.clone(), BLOCK);
    bytes.pop();
    case("length, block, edition and form", bytes, LENGTH);
}

/// Some bytes changed, sums not corrected.
fn damaged(random: &mut Random, rules: &RuleSet, take: Taker) {
    let file = rules.file();
    for changes in [1, 1, 2, 3, 10] {
        let mut bytes = file.clone();
        for _ in 0..changes {
            let at = random.below(bytes.len());
            bytes[at] = random.number() as u8;
        }
        take(Case::new(format!("{changes} bytes damaged"), bytes, Expected::Open));
    }
}

/// Some content bytes changed, and the sums corrected.
fn repaired(random: &mut Random, rules: &RuleSet, take: Taker) {
    let file = rules.file();
    let used = byte_of_word(rules.stream().len());
    for changes in [1, 1, 1, 1, 2, 3, 10] {
        let mut bytes = file.clone();
        for _ in 0..changes {
            let at = random.below(used.min(bytes.len()));
            if at % BLOCK_BYTES >= HEADER_BYTES {
                bytes[at] = if random.chance(50) { random.number() as u8 } else { random.below(32) as u8 };
            }
        }
        repair(&mut bytes);
        take(Case::new(format!("{changes} bytes damaged and repaired"), bytes, Expected::Open));
    }
}

/// Words changed, left out, inserted or exchanged for others: closer to a right stream than random bytes are.
fn reworded(random: &mut Random, rules: &RuleSet, take: Taker) {
    let stream = rules.stream();
    for _ in 0..20 {
        let mut words = stream.clone();
        for _ in 0..=random.below(2) {
            let at = 2 + random.below(words.len() - 2);
            match random.below(6) {
                0 => _ = words.remove(at),
                1 => words.insert(at, random.between(0, 31)),
                2 => words[at] = words[at].wrapping_add(1),
                3 => words[at] = words[at].wrapping_sub(1),
                4 => words[at] = *random.pick(&stream),
                _ => words[at] = random.between(0, 31),
            }
        }
        words[1] = crate::blocks::blocks_for(words.len()) as u16;
        take(Case::new("words changed", file_of(&words), Expected::Open));
    }
}

/// A right head and then random words, small enough to be codes or numbers.
fn random_streams(random: &mut Random, count: usize, take: Taker) {
    for _ in 0..count {
        let blocks = 1 + random.below(3);
        let mut words = vec![1, blocks as u16, 1, random.between(1, 4), 1, random.between(0, 1)];
        words.extend(vec![0; usize::from(words[5])]);
        let (functions, processes) = (random.between(0, 1), random.between(1, 2));
        words.push(functions);
        if functions == 1 {
            words.extend([0, 0, 0]);
        }
        words.push(processes);
        let (least, most) = *random.pick(&[(0, 31), (20, 29), (18, 30), (20, 24)]);
        let length = random.below(blocks * 254 - words.len());
        words.extend((0..length).map(|_| {
            if random.chance(60) {
                random.between(least, most)
            } else {
                random.between(0, 13)
            }
        }));
        take(Case::new("random words", file_in(&words, blocks), Expected::Open));
    }
}
