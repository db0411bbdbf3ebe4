//! Every kind of call on the plain interpreter: refusals in the table's order, as expected where the
//! generator knows them; nothing written on a refusal; everything kept that must be kept. Each call is also
//! made between forbidden pages, which tests that harness itself.
//!
//! `ROUNDS=20` generates twenty times as many random cases.

use host::calls::{Call, Outcome, Plain, Reply, EVERY_OPERATION};
use host::generate::calls::every_call;
use host::guarded::{Edge, Rooms};
use host::met::Met;
use host::{on_large_stack, plain, TABLE_BYTES};

fn rounds() -> usize {
    std::env::var("ROUNDS").ok().and_then(|rounds| rounds.parse().ok()).unwrap_or(1)
}

/// Whether the bytes after the first `words` words are unchanged.
fn kept(before: &[u8], after: &[u8], words: u32) -> bool {
    before.len() == after.len() && before[2 * words as usize..] == after[2 * words as usize..]
}

/// Asserts what must hold of the outcome of any call.
fn check(call: &Call, outcome: &Outcome) {
    let Outcome { reply, lent } = outcome;
    let refusal = reply.refusal();
    if let Some(expected) = call.expected {
        assert_eq!(expected, refusal, "{} ({:?})", call.name, call.operation);
    }
    if refusal != 0 {
        assert!(*lent == call.lent, "{} was refused {refusal} and wrote", call.name);
        return;
    }
    let sizes = plain::admit(&call.given[0]).expect("a call that was not refused");
    // The number of words of the term, and the index of its buffer; the memory is the next buffer.
    let (words, at) = match reply {
        Reply::Started(size) => (size.unwrap(), 0),
        Reply::Moved(made) => (made.unwrap().size, 0),
        Reply::Ran(_) => (sizes.reach, 1),
        Reply::Counted(_) => return,
    };
    assert!(kept(&call.lent[at], &lent[at], words), "{}: the term buffer", call.name);
    assert!(kept(&call.lent[at + 1], &lent[at + 1], sizes.cells), "{}: the memory", call.name);
    if let Reply::Ran(Ok(tally)) = reply {
        let zeros = &lent[1][2 * tally.size as usize..2 * words as usize];
        assert!(zeros.iter().all(|&byte| byte == 0), "{}: zeros up to G", call.name);
        assert!(kept(&call.lent[0], &lent[0], TABLE_BYTES as u32 / 2), "{}: the table", call.name);
    }
}

#[test]
fn every_call_is_answered() {
    let mut met = Met::default();
    on_large_stack(|| {
        let mut rooms = Rooms::new(65536);
        every_call(rounds(), &mut |call| {
            let outcome = call.outcome(&Plain);
            check(&call, &outcome);
            let guarded = [Edge::Front, Edge::Back].map(|edge| rooms.outcome(&Plain, &call, edge));
            assert!(guarded.iter().all(|other| outcome.same(other)), "{}", call.name);
            met.note(&call, &outcome.reply);
        });
    });
    met.say("the plain interpreter");
    met.require(&EVERY_OPERATION);
}
