//! The engine's operations on the deepest nestings, on a stack of the size that eb3.h asks for.
//!
//! Document 01 limits nesting only by a stream's length and a term's reach; `EB3_STACK_BYTES` is what a host
//! must provide. A call that needs more ends the process.
#![cfg(cabinet)]

use host::calls::{Call, Outcome, Plain};
use host::engine::{admit, Cabinet};
use host::generate::{deep, nesting};
use host::{on_large_stack, on_stack_of, plain};

/// As in eb3.h.
const STACK_BYTES: usize = 4 << 20;

#[test]
fn every_operation_has_stack_enough() {
    let header = include_str!("../eb3.h");
    assert!(header.contains(&format!("#define EB3_STACK_BYTES {STACK_BYTES}\n")));
    // The calls are generated, and made on the plain interpreter, on a large stack.
    let calls: Vec<(Call, Outcome)> = on_large_stack(|| {
        let calls = deep::worst().into_iter().flat_map(|deep| deep.calls());
        calls.map(|call| (call.outcome(&Plain), call)).map(|(outcome, call)| (call, outcome)).collect()
    });
    assert!(calls.len() > 100, "{} calls", calls.len());
    for (call, expected) in &calls {
        let found = on_stack_of(STACK_BYTES, || call.outcome(&Cabinet));
        assert!(expected.same(&found), "{} ({:?}) is answered otherwise", call.name, call.operation);
    }
}

#[test]
fn admission_has_stack_enough() {
    for nesting in nesting::worst() {
        let expected = on_large_stack(|| plain::admit(&nesting.file));
        assert_eq!(expected, on_stack_of(STACK_BYTES, || admit(&nesting.file)), "{}", nesting.name);
    }
}
