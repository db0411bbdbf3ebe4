//! Calls of the operations as data: the inputs, the lent buffers and the outcome.
//!
//! Document 01, "Operations". Every implementation can be given the same call; a test compares two replies
//! and the contents of the lent buffers afterwards.

use crate::{plain, Counted, LentToRun, Moved, Ran, Started, Tally};

/// The operations other than Admit, over slices in the order of eb3.h.
pub trait Operations {
    fn start(&self, rules: &[u8], term: &mut [u8], memory: &mut [u8]) -> Started;
    fn count(&self, rules: &[u8], term: &[u8], memory: &[u8]) -> Counted;
    fn make_move(
        &self,
        rules: &[u8],
        term: &[u8],
        memory: &[u8],
        number: u64,
        next_term: &mut [u8],
        next_memory: &mut [u8],
    ) -> Moved;
    fn present(
        &self,
        rules: &[u8],
        term: &[u8],
        memory: &[u8],
        event: &[u8],
        next_term: &mut [u8],
        next_memory: &mut [u8],
    ) -> Moved;
    fn run(&self, rules: &[u8], list: &[u8], lent: LentToRun) -> Ran;
}

/// The plain interpreter.
pub struct Plain;

impl Operations for Plain {
    fn start(&self, rules: &[u8], term: &mut [u8], memory: &mut [u8]) -> Started {
        plain::start(rules, term, memory)
    }

    fn count(&self, rules: &[u8], term: &[u8], memory: &[u8]) -> Counted {
        plain::count(rules, term, memory)
    }

    fn make_move(
        &self,
        rules: &[u8],
        term: &[u8],
        memory: &[u8],
        number: u64,
        next_term: &mut [u8],
        next_memory: &mut [u8],
    ) -> Moved {
        plain::make_move(rules, term, memory, number, next_term, next_memory)
    }

    fn present(
        &self,
        rules: &[u8],
        term: &[u8],
        memory: &[u8],
        event: &[u8],
        next_term: &mut [u8],
        next_memory: &mut [u8],
    ) -> Moved {
        plain::present(rules, term, memory, event, next_term, next_memory)
    }

    fn run(&self, rules: &[u8], list: &[u8], lent: LentToRun) -> Ran {
        plain::run(rules, list, lent)
    }
}

/// An operation. The slices that each takes are listed with it, in the order of eb3.h: those it only reads
/// (given) and those it may write (lent).
#[derive(Clone, Copy, Debug, PartialEq, Eq)]
pub enum Operation {
    /// Given rules; lent term, memory.
    Start,
    /// Given rules, term, memory; lent nothing.
    Count,
    /// Given rules, term, memory; lent term, memory.
    Move(u64),
    /// Given rules, term, memory, event; lent term, memory.
    Present,
    /// Given rules, a list of numbers with their readers; lent table, term, memory, spare term, spare memory.
    Run,
}

/// All operations; Move has some number, since callers look at the operation only.
pub const EVERY_OPERATION: [Operation; 5] =
    [Operation::Start, Operation::Count, Operation::Move(0), Operation::Present, Operation::Run];

#[derive(Clone, Debug)]
pub struct Call {
    pub name: String,
    pub operation: Operation,
    pub given: Vec<Vec<u8>>,
    pub lent: Vec<Vec<u8>>,
    /// The refusal, or 0 if there is none; `None` if the generator does not know it.
    pub expected: Option<u8>,
}

/// What an operation returned.
#[derive(Clone, Copy, Debug, PartialEq, Eq)]
pub enum Reply {
    Started(Started),
    Counted(Counted),
    Moved(Moved),
    Ran(Ran),
}

impl Reply {
    /// The refusal's number, or 0 if the operation was done.
    pub fn refusal(&self) -> u8 {
        let refusal = match self {
            Reply::Started(reply) => reply.err(),
            Reply::Counted(reply) => reply.err(),
            Reply::Moved(reply) => reply.err(),
            Reply::Ran(reply) => reply.err(),
        };
        refusal.unwrap_or(0)
    }
}

/// A reply, and the lent buffers after the call.
#[derive(Clone, Debug)]
pub struct Outcome {
    pub reply: Reply,
    pub lent: Vec<Vec<u8>>,
}

impl Outcome {
    /// The size and the counts of a run; panics if the run was refused.
    pub fn tally(&self) -> Tally {
        match self.reply {
            Reply::Ran(Ok(tally)) => tally,
            reply => panic!("{reply:?} is not a run that was done"),
        }
    }

    /// Whether two outcomes of the same call are equal. After a run that was done, the two scratch buffers,
    /// the fourth and the fifth, are not compared.
    pub fn same(&self, other: &Outcome) -> bool {
        let counting = match self.reply {
            Reply::Ran(Ok(_)) => 3,
            _ => self.lent.len(),
        };
        self.reply == other.reply && self.lent[..counting] == other.lent[..counting]
    }
}

/// Calls the operation with these slices.
pub fn ask(by: &dyn Operations, operation: Operation, given: &[&[u8]], lent: &mut [&mut [u8]]) -> Reply {
    match (operation, given, lent) {
        (Operation::Start, [rules], [term, memory]) => Reply::Started(by.start(rules, term, memory)),
        (Operation::Count, [rules, term, memory], []) => Reply::Counted(by.count(rules, term, memory)),
        (Operation::Move(number), [rules, term, memory], [next_term, next_memory]) => {
            Reply::Moved(by.make_move(rules, term, memory, number, next_term, next_memory))
        }
        (Operation::Present, [rules, term, memory, event], [next_term, next_memory]) => {
            Reply::Moved(by.present(rules, term, memory, event, next_term, next_memory))
        }
        (Operation::Run, [rules, list], [table, term, memory, spare_term, spare_memory]) => {
            Reply::Ran(by.run(rules, list, [table, term, memory, spare_term, spare_memory]))
        }
        _ => panic!("{operation:?} with slices that are not its own"),
    }
}

impl Call {
    /// Makes the call on copies of its buffers.
    pub fn outcome(&self, by: &dyn Operations) -> Outcome {
        let mut lent = self.lent.clone();
        let given: Vec<&[u8]> = self.given.iter().map(Vec::as_slice).collect();
        let mut slices: Vec<&mut [u8]> = lent.iter_mut().map(Vec::as_mut_slice).collect();
        let reply = ask(by, self.operation, &given, &mut slices);
        Outcome { reply, lent }
    }
}
