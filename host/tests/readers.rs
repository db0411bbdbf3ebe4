//! Request K1 (document 02): counts by card reader. Run's table and refusal 13, on the plain interpreter, on
//! the history machine and, if it is linked, on the engine; between forbidden pages without the history
//! machine. The header's numbers are tested, too. `ROUNDS=20` generates twenty times as many random cases.

use host::calls::{Call, Operation, Operations, Outcome, Plain};
use host::generate::calls::{known_subjects, subjects_of_all_shapes, Subject};
use host::generate::ends::with_main;
use host::generate::lent::{for_run, roomy, roomy_for_run, table, Fit};
use host::generate::random::Random;
use host::generate::readers::{self, at_any, increases, of_pairs, records, with_reader, NO_READERS};
use host::generate::{clauses, damage, limits, Case};
use host::guarded::{Edge, Rooms};
use host::machines::{outcome, MACHINES};
use host::refusal::{READER, SPACE};
use host::rules::{mask_of, RuleSet, Term};
use host::{bytes_of, examples, on_large_stack, plain, words_of, READERS, RECORD_BYTES, TABLE_BYTES};

fn rounds() -> usize {
    std::env::var("ROUNDS").ok().and_then(|rounds| rounds.parse().ok()).unwrap_or(1)
}

/// Makes a run by every implementation, and asserts that the outcomes are the same, that a refusal has
/// written nothing, and that a run has kept the bytes after the readers' records.
fn ran(file: &[u8], list: &[u8], lent: &[Vec<u8>; 5]) -> Outcome {
    let mut outcomes = MACHINES.iter().map(|(by, run)| (by, outcome(*run, file, list, lent)));
    let (first, left) = outcomes.next().expect("a machine");
    for (by, other) in outcomes {
        let start = &list[..list.len().min(400)];
        assert_eq!(left.reply, other.reply, "{first} (left) and {by} (right), list {start:?}");
        assert!(left.same(&other), "{first} and {by} leave other bytes, list {start:?}");
    }
    match left.reply.refusal() {
        0 => assert_eq!(lent[0][TABLE_BYTES..], left.lent[0][TABLE_BYTES..], "after the records"),
        refusal => assert!(left.lent == *lent, "refused {refusal}, and wrote"),
    }
    left
}

/// The refusal of such a run, 0 if there is none.
fn refusal(file: &[u8], list: &[u8], lent: &[Vec<u8>; 5]) -> u8 {
    ran(file, list, lent).reply.refusal()
}

/// Buffers with room, for an admitted rule set, with the given table.
fn lent_with(random: &mut Random, subject: &Subject, table: Vec<u8>) -> [Vec<u8>; 5] {
    let mut lent = for_run(random, subject.sizes, [Fit::Exact; 5]);
    lent[0] = table;
    lent
}

fn subject(rules: RuleSet) -> Subject {
    Subject::new("example", rules).expect("the example is admitted")
}

// Rule sets for which the effect of each number is known.

/// A rule set, with a number that is a visible move, one that is an internal move, and one that is refused,
/// in every state that these numbers lead to.
struct Known {
    subject: Subject,
    numbers: [u16; 3],
}

/// One rule set without a mask and one with a mask.
fn known() -> [Known; 2] {
    let (a, step) = (|| Term::action(0, &[]), || Term::Internal);
    let round = || Term::star(Term::choice(a(), step()));
    // The star's end is move 0, a is move 1 and the internal step move 2.
    let bare = Known { subject: subject(with_main(round())), numbers: [1, 2, 3] };
    // The left star's end and internal step are moves 0 and 1, the right star's end is move 2, and a in both
    // is move 3.
    let both = Term::parallel(mask_of(&[0]), round(), Term::star(a()));
    [bare, Known { subject: subject(with_main(both)), numbers: [3, 1, 4] }]
}

impl Known {
    /// Runs a list, given by the effect of each number (0 visible, 1 internal, 2 refused) and its reader, and
    /// asserts that its counts and its table are the expected ones.
    fn run(&self, random: &mut Random, done: &[(usize, u16)], before: &[u8]) {
        let list = of_pairs(done.iter().map(|&(count, reader)| (self.numbers[count], reader)));
        let (mut expected, mut counts) = (before.to_vec(), [0; 3]);
        for &(count, reader) in done {
            let at = RECORD_BYTES * (usize::from(reader) - 1) + 4 * count;
            let number = u32::from_le_bytes(expected[at..at + 4].try_into().expect("four bytes"));
            expected[at..at + 4].copy_from_slice(&number.wrapping_add(1).to_le_bytes());
            counts[count] += 1;
        }
        let left = ran(&self.subject.file, &list, &lent_with(random, &self.subject, before.to_vec()));
        assert_eq!(counts, left.tally().counts());
        assert!(expected == left.lent[0], "{:?} expected, {:?}", records(&expected), records(&left.lent[0]));
    }
}

/// Random lists on tables with any contents.
#[test]
fn records_are_what_the_numbers_did() {
    let mut random = Random::new(61);
    for known in known() {
        for length in [0, 1, 2, 40, 3000].repeat(10 * rounds()) {
            let pair = |random: &mut Random| (random.below(3), random.between(1, READERS));
            let done: Vec<(usize, u16)> = (0..length).map(|_| pair(&mut random)).collect();
            let fit = roomy(&mut random);
            let before = table(&mut random, fit);
            known.run(&mut random, &done, &before);
        }
    }
}

/// Each count of each reader alone, from 4,294,967,295 and from one below it.
#[test]
fn counts_begin_again_at_0() {
    let mut random = Random::new(62);
    for known in known() {
        for (reader, count) in (1..=READERS).flat_map(|reader| [0, 1, 2].map(|count| (reader, count))) {
            known.run(&mut random, &[(count, reader)], &[0xff; TABLE_BYTES]);
            let two_below = 0xffff_fffe_u32.to_le_bytes().repeat(TABLE_BYTES / 4);
            known.run(&mut random, &[(count, reader); 5], &two_below);
        }
    }
}

/// More numbers at one reader than 16 bits can count.
#[test]
fn counts_have_32_bits() {
    let mut random = Random::new(63);
    let done = [0, 1, 2].map(|count| vec![(count, 17); 70_000 + count]).concat();
    for known in known() {
        known.run(&mut random, &done, &[0; TABLE_BYTES]);
        known.run(&mut random, &done, &(u32::MAX - 65_536).to_le_bytes().repeat(TABLE_BYTES / 4));
    }
}

/// Random rule sets: the increases of all readers add up to the three counts, and each reader's increases to
/// the number of its numbers.
#[test]
fn every_number_is_counted_once() {
    let counted = on_large_stack(|| {
        let mut random = Random::new(64);
        let subjects = subjects_of_all_shapes(&mut random, 40 * rounds());
        let mut counted = [0u64; 3];
        for subject in subjects.iter().filter(|subject| subject.sizes.breadth < 500) {
            for length in [0, 1, 2, 5, 13, 34, 200] {
                let list = readers::list(&mut random, length);
                let lent = roomy_for_run(&mut random, subject.sizes);
                let left = ran(&subject.file, &list, &lent);
                let increases = increases(&lent[0], &left.lent[0]);
                let sum = |count: usize| increases.iter().map(|record| u64::from(record[count])).sum::<u64>();
                assert_eq!([0, 1, 2].map(sum), left.tally().counts(), "{}: {list:?}", subject.name);
                let words = words_of(&list);
                for (reader, record) in (1..).zip(&increases) {
                    let numbers = words.chunks_exact(2).filter(|pair| pair[1] == reader).count();
                    assert_eq!(numbers as u32, record.iter().sum::<u32>(), "{}: {list:?}", subject.name);
                }
                [0, 1, 2].iter().for_each(|&count| counted[count] += sum(count));
            }
        }
        counted
    });
    assert!(counted.iter().all(|&count| count > 1000), "visible, internal, refused: {counted:?}");
}

/// One number more adds 1 to one count of its reader, the one that also increases in the run's own counts,
/// and nothing else.
#[test]
fn a_number_more_adds_one_at_its_reader() {
    let mut random = Random::new(65);
    for subject in known_subjects().iter().filter(|subject| subject.sizes.breadth < 500) {
        for _ in 0..5 * rounds() {
            let list = &readers::list(&mut random, 24)[..4 * 24];
            let lent = roomy_for_run(&mut random, subject.sizes);
            let mut last = ran(&subject.file, &[], &lent);
            assert_eq!(lent[0], last.lent[0], "no number, and counted");
            for end in (4..=list.len()).step_by(4) {
                let next = ran(&subject.file, &list[..end], &lent);
                let (before, after) = (last.tally().counts(), next.tally().counts());
                let more = [0, 1, 2].map(|count| (after[count] - before[count]) as u32);
                let mut expected = vec![[0; 3]; usize::from(READERS)];
                expected[usize::from(words_of(list)[end / 2 - 1]) - 1] = more;
                assert_eq!(expected, increases(&last.lent[0], &next.lent[0]), "{}", subject.name);
                assert_eq!(1, more.iter().sum::<u32>());
                last = next;
            }
        }
    }
}

/// A table of 31 records or fewer is refused; one of 33 or 34, or with part of another record, is not, and
/// the bytes after the 32nd record keep their values.
#[test]
fn tables_of_every_length() {
    let mut random = Random::new(66);
    let cabinet = subject(examples::key_cabinet(2));
    let short = [0, 1, 11, 12, 31 * RECORD_BYTES];
    for bytes in short.into_iter().chain(380..=34 * RECORD_BYTES).chain([1000, 4096]) {
        for list in [vec![], readers::list(&mut random, 20)] {
            let mut held = table(&mut random, Fit::Longer).repeat(11);
            held.truncate(bytes);
            let lent = lent_with(&mut random, &cabinet, held);
            let left = ran(&cabinet.file, &list, &lent);
            if bytes < TABLE_BYTES {
                assert_eq!(READER, left.reply.refusal(), "a table of {bytes} bytes");
            } else {
                let added: u32 = increases(&lent[0], &left.lent[0]).iter().flatten().sum();
                assert_eq!((list.len() / 4) as u32, added, "a table of {bytes} bytes");
            }
        }
    }
}

/// 0, 33, 65,535 and others as a reader, at the first, a middle and the last number, after numbers that are
/// moves and numbers that are not; and every word at the last number.
#[test]
fn readers_outside_1_to_32() {
    let mut random = Random::new(67);
    let cabinet = subject(examples::key_cabinet(2));
    for numbers in [&[1][..], &[9], &[1, 0], &[1, 9, 65535, 0, 3, 2, 65535]] {
        let list = at_any(&mut random, numbers);
        let held = table(&mut random, Fit::Longer);
        let lent = lent_with(&mut random, &cabinet, held);
        for place in [0, numbers.len() / 2, numbers.len() - 1] {
            for reader in NO_READERS {
                let refusal = refusal(&cabinet.file, &with_reader(&list, place, reader), &lent);
                assert_eq!(READER, refusal, "reader {reader} at place {place} of {}", numbers.len());
            }
            for reader in 1..=READERS {
                assert_eq!(0, refusal(&cabinet.file, &with_reader(&list, place, reader), &lent));
            }
        }
    }
    let small = subject(with_main(Term::Internal));
    let lent = lent_with(&mut random, &small, vec![0; TABLE_BYTES]);
    for reader in 0..=65535 {
        let expected = if (1..=32).contains(&reader) { 0 } else { READER };
        assert_eq!(expected, refusal(&small.file, &bytes_of(&[0, 1, 0, reader]), &lent), "reader {reader}");
    }
}

/// A list cut at every byte: an odd byte after whole pairs is ignored; a number without its reader is
/// refused, with an odd byte too.
#[test]
fn a_list_cut_in_the_middle_of_a_pair() {
    let mut random = Random::new(68);
    let cabinet = subject(examples::key_cabinet(2));
    let list = at_any(&mut random, &[1, 9, 0, 3, 2, 65535]);
    let held = table(&mut random, Fit::Odd);
    let lent = lent_with(&mut random, &cabinet, held);
    for end in 0..=list.len() {
        let left = ran(&cabinet.file, &list[..end], &lent);
        match end % 4 {
            0 => assert_eq!(end as u64 / 4, left.tally().counts().iter().sum()),
            1 => assert!(left.same(&ran(&cabinet.file, &list[..end - 1], &lent)), "an odd byte"),
            _ => assert_eq!(READER, left.reply.refusal(), "{end} bytes"),
        }
    }
    for (_, list) in readers::wrong(&mut random, 9) {
        assert_eq!(READER, refusal(&cabinet.file, &list, &lent), "{list:?}");
    }
}

/// One file for each refusal of a rule set.
fn refused_files() -> Vec<(u8, Vec<u8>)> {
    let mut files: Vec<(u8, Vec<u8>)> = Vec::new();
    let mut take = |case: Case| {
        let refusal = plain::admit(&case.bytes).err();
        if let Some(refusal) = refusal.filter(|&refusal| files.iter().all(|(known, _)| *known != refusal)) {
            files.push((refusal, case.bytes));
        }
    };
    limits::cases(&mut take);
    clauses::cases(&mut take);
    damage::cases(1, &mut take);
    assert_eq!(8, files.len(), "a refusal of 1 to 8 is missing");
    files
}

/// Fits of the five buffers: tables of some lengths, with all other buffers roomy or one of them too short.
fn some_fits() -> Vec<[Fit; 5]> {
    let mut some = Vec::new();
    for table in [Fit::Empty, Fit::ByteShort, Fit::Exact, Fit::Longer] {
        let all_roomy = [table, Fit::Exact, Fit::Longer, Fit::Odd, Fit::Exact];
        some.push(all_roomy);
        for (buffer, fit) in (1..5).flat_map(|buffer| [(buffer, Fit::Empty), (buffer, Fit::ByteShort)]) {
            let mut fits = all_roomy;
            fits[buffer] = fit;
            some.push(fits);
        }
    }
    some
}

/// 1 to 8 before 9, and 9 before 13, in every combination.
#[test]
fn refusals_in_combination() {
    on_large_stack(|| {
        let mut random = Random::new(69);
        let cabinet = subject(examples::key_cabinet(2));
        let right = at_any(&mut random, &[1, 9, 0]);
        let wrong = [with_reader(&right, 0, 0), with_reader(&right, 2, 33), right[..10].to_vec()];
        for (of_rules, file) in refused_files().into_iter().chain([(0, cabinet.file.clone())]) {
            for fits in some_fits() {
                for list in wrong.iter().chain([&right]) {
                    let of_space = if fits[1..].iter().all(|fit| fit.suffices(1)) { 0 } else { SPACE };
                    let readers_right = *list == right && fits[0].suffices(TABLE_BYTES / 2);
                    let of_readers = if readers_right { 0 } else { READER };
                    let apply = [of_rules, of_space, of_readers].into_iter().find(|&refusal| refusal != 0);
                    let lent = for_run(&mut random, cabinet.sizes, fits);
                    let refusal = refusal(&file, list, &lent);
                    assert_eq!(apply.unwrap_or(0), refusal, "rules {of_rules}, {fits:?}, list {list:?}");
                }
            }
        }
    });
}

/// The implementations that can run between forbidden pages.
fn operations() -> Vec<&'static dyn Operations> {
    vec![
        &Plain,
        #[cfg(cabinet)]
        &host::engine::Cabinet,
    ]
}

/// List and table next to forbidden pages, before and after them: no byte outside is read or written. At the
/// end of a page, tables of these lengths begin at every alignment.
#[test]
fn between_forbidden_pages() {
    let mut random = Random::new(70);
    let cabinet = subject(examples::key_cabinet(2));
    let mut rooms = Rooms::new(65536);
    let right = at_any(&mut random, &[1, 9, 0, 3]);
    let with_33 = with_reader(&right, 3, 33);
    let lists = (0..=right.len()).map(|end| &right[..end]).chain([&with_33[..]]);
    let mut met = [0; 2];
    for (list, bytes) in lists.flat_map(|list| (380..=400).map(move |bytes| (list, bytes))) {
        let mut held = table(&mut random, Fit::Longer);
        held.resize(bytes, 0xa5);
        let call = Call {
            name: format!("list {list:?}, a table of {bytes} bytes"),
            operation: Operation::Run,
            given: vec![cabinet.file.clone(), list.to_vec()],
            lent: lent_with(&mut random, &cabinet, held).to_vec(),
            expected: None,
        };
        let expected = call.outcome(&Plain);
        let right = list.len() % 4 < 2 && list != with_33 && bytes >= TABLE_BYTES;
        assert_eq!(if right { 0 } else { READER }, expected.reply.refusal(), "{}", call.name);
        met[usize::from(right)] += 1;
        for (by, edge) in operations().into_iter().flat_map(|by| [(by, Edge::Front), (by, Edge::Back)]) {
            assert!(expected.same(&rooms.outcome(by, &call, edge)), "{}, {edge:?}", call.name);
        }
    }
    assert!(met.iter().all(|&calls| calls > 100), "refused and done: {met:?}");
}

/// List and table at any address, with other bytes around them.
#[test]
fn at_every_address() {
    let mut random = Random::new(71);
    let cabinet = subject(examples::key_cabinet(2));
    let list = at_any(&mut random, &[1, 9, 0, 3, 65535]);
    let held = table(&mut random, Fit::Exact);
    let lent = lent_with(&mut random, &cabinet, held);
    let expected = ran(&cabinet.file, &list, &lent);
    for (at, (by, run)) in (0..16).flat_map(|at| MACHINES.iter().map(move |machine| (at, machine))) {
        let around = |bytes: &[u8]| [&vec![0x5a; at][..], bytes, &[0xa5; 16]].concat();
        let (list_room, mut table_room) = (around(&list), around(&lent[0]));
        let [_, mut term, mut memory, mut spare_term, mut spare_memory] = lent.clone();
        let table = &mut table_room[at..at + TABLE_BYTES];
        let lent = [table, &mut term, &mut memory, &mut spare_term, &mut spare_memory];
        let ran = run(&cabinet.file, &list_room[at..at + list.len()], lent);
        assert_eq!(Ok(expected.tally()), ran, "{by}, {at} bytes on");
        assert_eq!(around(&expected.lent[0]), table_room, "{by}, {at} bytes on");
    }
}

/// eb3.h has the same numbers.
#[test]
fn the_header_says_so() {
    let header = include_str!("../eb3.h");
    let lines = [
        format!("#define EB3_READERS {READERS}\n"),
        format!("#define EB3_TABLE_BYTES ({RECORD_BYTES} * EB3_READERS)\n"),
        format!("    EB3_REFUSED_READER = {READER} "),
    ];
    assert!(lines.iter().all(|line| header.contains(line)), "one of {lines:?} is not in eb3.h");
}
