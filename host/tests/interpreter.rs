//! Tests of the plain interpreter: document 01's examples, and what it says of cells and masks.

use host::generate::calls::Subject;
use host::generate::readers::by_turns;
use host::generate::running::{self, State};
use host::rules::{mask_of, Argument, Condition, Data, Function, Process, RuleSet, Term};
use host::{bytes_of, examples, plain, words_of, Action, Sizes, Tally, TABLE_BYTES};

fn subject(rules: RuleSet) -> Subject {
    Subject::new("example", rules).expect("the example is admitted")
}

/// A label without arguments.
fn visible(label: u16) -> Action {
    Action::Visible { label, count: 0, arguments: [0, 0] }
}

/// A label with one argument.
fn of(label: u16, argument: u16) -> Action {
    Action::Visible { label, count: 1, arguments: [argument, 0] }
}

fn moves(subject: &Subject, state: &State) -> Vec<(Action, State)> {
    running::moves(&subject.rules, &subject.file, state)
}

/// The moves of a term of a rule set with labels a and b and no cells: actions and successors.
fn bare_moves(term: &[u16]) -> Vec<(Action, Vec<u16>)> {
    let subject = subject(examples::copies_of_choice(1));
    let state = State { term: bytes_of(term), memory: Vec::new() };
    moves(&subject, &state).into_iter().map(|(action, next)| (action, words_of(&next.term))).collect()
}

/// Whether a condition holds, tested as a guard.
fn holds(condition: &Condition) -> bool {
    let mut term = vec![26];
    condition.spell(&mut term);
    term.push(20);
    !bare_moves(&term).is_empty()
}

const A: [u16; 2] = [21, 0];
const B: [u16; 2] = [21, 1];

fn beside(mask: &[u16], left: &[u16], right: &[u16]) -> Vec<u16> {
    [&[25], &mask_of(mask)[..], left, right].concat()
}

#[test]
fn p1_to_p4_expressions() {
    let (number, undefined) = (Data::Constant, || Data::Undefined);
    let equal = |left, right| holds(&Condition::equal(left, right));
    assert!(equal(undefined(), undefined()), "P1");
    assert!(!holds(&Condition::less(undefined(), number(0))), "P2");
    assert!(!holds(&Condition::less(number(0), undefined())));
    assert!(holds(&Condition::less(number(0), number(1))));
    assert!(!holds(&Condition::less(number(1), number(1))));
    assert!(equal(Data::plus(number(65533), number(1)), number(65534)), "P3");
    assert!(equal(Data::plus(number(65534), number(1)), undefined()), "P3");
    assert!(equal(Data::plus(number(65534), number(65534)), undefined()));
    assert!(equal(Data::minus(number(1), number(1)), number(0)), "P4");
    assert!(equal(Data::minus(number(0), number(1)), undefined()), "P4");
    for (left, right) in [(undefined(), number(0)), (number(0), undefined()), (undefined(), undefined())] {
        assert!(equal(Data::plus(left.clone(), right.clone()), undefined()));
        assert!(equal(Data::minus(left, right), undefined()));
    }
    assert!(!equal(undefined(), number(65534)));
}

#[test]
fn p5_to_p12_terms() {
    let (i, a, b) = (Action::Internal, visible(0), visible(1));
    assert_eq!(bare_moves(&[30]), []);
    assert_eq!(bare_moves(&[24, 21, 0]), [(i, vec![30]), (a, vec![22, 30, 24, 21, 0])], "P6");
    assert_eq!(bare_moves(&beside(&[], &[30], &[30])), [(i, vec![30])], "P7");
    assert_eq!(bare_moves(&beside(&[0], &A, &A)), [(a, beside(&[0], &[30], &[30]))], "P8");
    assert_eq!(bare_moves(&beside(&[0], &A, &B)), [(b, beside(&[0], &A, &[30]))], "P9");
    let both = [(i, beside(&[0], &[30], &[20])), (i, beside(&[0], &[20], &[30]))];
    assert_eq!(bare_moves(&beside(&[0], &[20], &[20])), both, "P10");
    assert_eq!(bare_moves(&[23, 21, 0, 21, 0]), [(a, vec![30]), (a, vec![30])], "P11");
    assert_eq!(bare_moves(&[26, 12, 13, 21, 0]), [], "P12");
    // The successor of a guard drops it; the successor of a sequence whose left side is done is that of its
    // right side alone.
    assert_eq!(bare_moves(&[26, 13, 22, 21, 0, 21, 1]), [(a, vec![22, 30, 21, 1])]);
    assert_eq!(bare_moves(&[22, 30, 24, 20])[1], (i, vec![22, 30, 24, 20]));
    // The moves of one side come before the pairs, left's before right's.
    let mixed = |first: &[u16]| [&[23], first, &[20]].concat();
    let moves = bare_moves(&beside(&[0], &mixed(&A), &mixed(&A)));
    assert_eq!(moves.iter().map(|(action, _)| *action).collect::<Vec<_>>(), [i, i, a]);
}

#[test]
fn key_cabinet_session() {
    let cabinet = subject(examples::key_cabinet(2));
    assert_eq!(Sizes { cells: 2, reach: 77, breadth: 4, size: 41 }, cabinet.sizes);
    let start = running::start(&cabinet.file, cabinet.sizes);
    assert_eq!((41, vec![0, 0]), (start.term.len() / 2, words_of(&start.memory)));
    let listed = moves(&cabinet, &start);
    let actions = |moves: &[(Action, State)]| moves.iter().map(|(action, _)| *action).collect::<Vec<_>>();
    assert_eq!([Action::Internal, of(0, 0), Action::Internal, of(0, 1)], actions(&listed)[..]);
    let (_, next) = &listed[1];
    assert_eq!(vec![1, 0], words_of(&next.memory));
    assert_eq!([of(1, 0), Action::Internal, of(0, 1)], actions(&moves(&cabinet, next))[..]);
    let (mut table, mut term, mut memory) = (vec![7; TABLE_BYTES + 1], vec![7; 160], vec![7; 6]);
    let lent = [&mut table[..], &mut term, &mut memory, &mut [0; 154], &mut [0; 4]];
    let size = next.term.len() as u64 / 2;
    let tally = Tally { size, visible: 1, internal: 0, refused: 1 };
    // Move 1 at reader 1, which is visible, and 9 at reader 2, which does not exist.
    assert_eq!(Ok(tally), plain::run(&cabinet.file, &by_turns(&[1, 9]), lent));
    let zeros = vec![0; 154 - next.term.len()];
    assert_eq!([&next.term[..], &zeros, &[7; 6]].concat(), term);
    assert_eq!(vec![1, 0, 0, 0, 7, 7], memory);
    let mut expected = vec![7; TABLE_BYTES + 1];
    (expected[0], expected[12 + 8]) = (8, 8);
    assert_eq!(expected, table);
}

#[test]
fn ten_copies_have_1024_moves_and_eleven_are_refused() {
    let ten = subject(examples::copies_of_choice(10));
    assert_eq!(59048, ten.sizes.breadth);
    let start = running::start(&ten.file, ten.sizes);
    let listed = moves(&ten, &start);
    assert_eq!(1024, listed.len());
    let done = (1..10).fold(vec![30], |inner, _| beside(&[0], &[30], &inner));
    assert!(listed.iter().all(|(action, next)| *action == visible(0) && words_of(&next.term) == done));
    let eleven = examples::copies_of_choice(11).file();
    let (mut term, mut memory) = (vec![0; 20000], vec![0; 100]);
    assert_eq!(Err(8), plain::start(&eleven, &mut term, &mut memory));
    assert_eq!(Err(8), plain::count(&eleven, &start.term, &[]));
}

/// Labels above 15, whose mask bits are in the later words.
#[test]
fn masks_of_many_labels() {
    let a = |label| Term::action(label, &[]);
    for label in [0, 1, 15, 16, 31, 32, 47, 48, 63u16] {
        for masked in [label, (label + 16) % 64, (label + 8) % 64] {
            let main = Term::parallel(mask_of(&[masked]), a(label), a(label));
            let mut rules = examples::copies_of_choice(1);
            rules.labels = vec![vec![]; 64];
            rules.processes[0].term = main;
            let subject = subject(rules);
            let start = running::start(&subject.file, subject.sizes);
            assert_eq!(if masked == label { 1 } else { 2 }, moves(&subject, &start).len());
        }
    }
}

/// Before reads old cells, now new ones; a value outside a domain is undefined; a memory may contain any
/// word.
#[test]
fn cells_are_renewed_in_order() {
    let (before, now) = (|function| Data::before(function, Data::Variable(0)), Data::now);
    let function = |at_start, at_a, at_b| Function { domain: 0, at_start, at_label: vec![at_a, at_b] };
    let one = || Data::Constant(1);
    let shifted = Data::before(0, Data::minus(Data::Variable(0), one()));
    let rules = RuleSet {
        domains: vec![3],
        labels: vec![vec![], vec![0, 0]],
        functions: vec![
            function(Data::Variable(0), before(1), shifted),
            function(Data::plus(now(0, Data::Variable(0)), Data::Constant(10)), before(0), before(1)),
            function(
                Data::Undefined,
                Data::plus(now(1, Data::Variable(0)), one()),
                Data::plus(Data::Variable(1), Data::plus(Data::Variable(1), Data::Variable(2))),
            ),
        ],
        processes: vec![Process {
            parameters: vec![],
            term: Term::choice(
                Term::action(0, &[]),
                Term::action(1, &[Argument::Constant(2), Argument::Constant(1)]),
            ),
        }],
    };
    let subject = subject(rules);
    let start = running::start(&subject.file, subject.sizes);
    let undefined = 65535;
    let cells = |first: [u16; 3], second: [u16; 3], third: [u16; 3]| [first, second, third].concat();
    let after = |memory: Vec<u16>| {
        let state = State { term: start.term.clone(), memory: bytes_of(&memory) };
        moves(&subject, &state).iter().map(|(_, next)| words_of(&next.memory)).collect::<Vec<_>>()
    };
    let at_start = cells([0, 1, 2], [10, 11, 12], [undefined; 3]);
    assert_eq!(at_start, words_of(&start.memory));
    let by_a = cells([10, 11, 12], [0, 1, 2], [1, 2, 3]);
    let by_b = cells([undefined, 0, 1], [10, 11, 12], [5; 3]);
    assert_eq!(vec![by_a, by_b], after(at_start));
    let any = cells([65534, undefined, 7], [65534, undefined, 65533], [1, 2, 3]);
    let by_a = cells([65534, undefined, 65533], [65534, undefined, 7], [undefined, undefined, 8]);
    let by_b = cells([undefined, 65534, undefined], [65534, undefined, 65533], [5; 3]);
    assert_eq!(vec![by_a, by_b], after(any));
}

/// Refusals 9 to 12, each condition alone, and their order where several hold, on the key cabinet: G is 77,
/// so a term takes 154 bytes; there are two cells, so a memory takes 4.
#[test]
fn each_condition_of_9_to_12() {
    let cabinet = subject(examples::key_cabinet(2));
    let (file, State { term, memory }) = (&cabinet.file, running::start(&cabinet.file, cabinet.sizes));
    let start =
        |term: usize, memory: usize| plain::start(file, &mut vec![0; term], &mut vec![0; memory]).err();
    let run = |sizes: [usize; 4]| {
        let [mut a, mut b, mut c, mut d] = sizes.map(|size| vec![0; size]);
        plain::run(file, &[], [&mut [0; TABLE_BYTES], &mut a, &mut b, &mut c, &mut d]).err()
    };
    assert_eq!([None, Some(9), Some(9)], [start(154, 4), start(153, 4), start(154, 3)]);
    assert_eq!(None, run([154, 4, 154, 4]));
    for short in [[153, 4, 154, 4], [154, 3, 154, 4], [154, 4, 153, 4], [154, 4, 154, 3]] {
        assert_eq!(Some(9), run(short));
    }
    let count = |term: &[u8], memory: &[u8]| plain::count(file, term, memory).err();
    let made = |term: &[u8], memory: &[u8], number: u64, sizes: [usize; 2]| {
        let [mut next_term, mut next_memory] = sizes.map(|size| vec![0; size]);
        plain::make_move(file, term, memory, number, &mut next_term, &mut next_memory).err()
    };
    let presented = |term: &[u8], memory: &[u8], event: &[u16], sizes: [usize; 2]| {
        let [mut next_term, mut next_memory] = sizes.map(|size| vec![0; size]);
        plain::present(file, term, memory, &bytes_of(event), &mut next_term, &mut next_memory).err()
    };
    let (right, take_0) = ([154, 4], [21, 0, 1, 0]);
    assert_eq!([None; 2], [count(&term, &memory), made(&term, &memory, 3, right)]);
    assert_eq!(None, presented(&term, &memory, &take_0, right));
    assert_eq!([Some(9); 2], [count(&term, &memory[..3]), made(&term, &memory[..3], 0, right)]);
    assert_eq!(Some(9), presented(&term, &memory[..3], &take_0, right));
    for short in [[153, 4], [154, 3]] {
        assert_eq!(Some(9), made(&term, &memory, 0, short));
        assert_eq!(Some(9), presented(&term, &memory, &take_0, short));
    }
    // A smaller term needs room for its own reach only.
    assert_eq!([None, Some(9)], [[8, 4], [7, 4]].map(|sizes| made(&bytes_of(&take_0), &memory, 0, sizes)));
    // 12: no such number, no such event; but 9 before 12, 11 before 9, and 10 before 11.
    assert_eq!([Some(12); 2], [4, u64::MAX].map(|number| made(&term, &memory, number, right)));
    assert_eq!(Some(12), presented(&term, &memory, &[21, 1, 1, 0], right));
    assert_eq!(Some(9), made(&term, &memory, 4, [0, 0]));
    assert_eq!(Some(9), presented(&term, &memory, &[21, 1, 1, 0], [0, 0]));
    let strangers: [&[u16]; 9] = [
        &[],
        &[30],
        &[22],
        &[20, 20],
        &[21],
        &[21, 2, 1, 0],
        &[21, 0, 2, 0],
        &[21, 0, 1, 2],
        &[21, 0, 1, 0, 0],
    ];
    for stranger in strangers {
        assert_eq!(Some(11), presented(&term, &memory, stranger, [0, 0]), "{stranger:?}");
        assert_eq!(Some(10), presented(&[], &memory, stranger, [0, 0]), "{stranger:?}");
    }
    let stars = [vec![24; 130], vec![20]].concat();
    let broad = (1..17).fold(take_0.to_vec(), |inner, _| beside(&[0], &take_0, &inner));
    let wrong: [&[u16]; 17] = [
        &[],
        &[0],
        &[27, 0, 20],
        &[29, 0],
        &[31],
        &[20, 20],
        &[22, 20],
        &[21, 2, 1, 0],
        &[21, 0, 2, 0],
        &[21, 0, 1, 2],
        &[25, 4, 0, 0, 0, 20, 20],
        &[26, 8, 2, 0, 0, 20],
        &[26, 8, 7, 0, 0, 0, 20],
        &[26, 8, 6, 1, 0, 0, 20],
        &[26, 8, 1, 65535, 0, 20],
        &stars,
        &broad,
    ];
    for words in wrong {
        let term = bytes_of(words);
        assert_eq!([Some(10); 2], [count(&term, &[]), made(&term, &[], 9, [0, 0])], "{words:?}");
    }
    let odd = [&term[..], &[0]].concat();
    assert_eq!([Some(10); 2], [count(&odd, &memory), made(&odd, &memory, 0, right)]);
    assert_eq!(Some(11), {
        let mut buffers = (vec![0; 154], vec![0; 4]);
        plain::present(file, &term, &memory, &[20, 0, 0], &mut buffers.0, &mut buffers.1).err()
    });
}
