//! Finds the least stack on which each operation returns, for the deepest nestings: for Admit of rule sets
//! that 64 blocks can hold, for the other operations of states within the limits.
//!
//! Each attempt runs in a child process, since a stack overflow kills it: a thread on a stack of the given
//! size, with 64 MiB of forbidden pages below it, so that a frame larger than one guard page cannot step over
//! them. The least size that passes is found by bisection. The figures include what the thread itself needs
//! at its start (the C library asks for 16 KiB). Both the engine, if it is linked, and the plain interpreter
//! are measured. For Linux.

use std::ffi::{c_int, c_void};
use std::process::{Command, ExitCode, Stdio};
use std::{env, ptr};

use host::calls::{ask, Call, Operation, Operations, Plain};
use host::generate::deep::{self, Deep};
use host::generate::nesting;
use host::{on_large_stack, plain, Answer};

/// The smallest stack that the C library allows a thread, the largest that is tried, and the step, all in
/// KiB.
const LEAST: usize = 16;
const MOST: usize = 256 * 1024;
const STEP: usize = 4;

type Admit = fn(&[u8]) -> Answer;

/// An implementation to measure.
#[derive(Clone, Copy)]
struct Side {
    name: &'static str,
    admit: Admit,
    operations: &'static (dyn Operations + Sync),
}

fn sides() -> Vec<Side> {
    vec![
        #[cfg(cabinet)]
        Side {
            name: "engine",
            admit: host::engine::admit,
            operations: &host::engine::Cabinet,
        },
        Side { name: "plain", admit: plain::admit, operations: &Plain },
    ]
}

/// The columns after Admit's, in the order of eb3.h.
const OPERATIONS: [&str; 5] = ["start", "count", "move", "present", "run"];

fn column(operation: Operation) -> &'static str {
    match operation {
        Operation::Start => "start",
        Operation::Count => "count",
        Operation::Move(_) => "move",
        Operation::Present => "present",
        Operation::Run => "run",
    }
}

/// The states to measure.
fn states() -> Vec<Deep> {
    [vec![deep::shallow()], deep::worst()].concat()
}

fn main() -> ExitCode {
    let arguments: Vec<String> = env::args().collect();
    if let [_, side, operation, shape, kib] = &arguments[..] {
        let number = |text: &str| text.parse().expect("a number");
        return attempt(side, operation, number(shape), number(kib) * 1024);
    }
    admit_table();
    println!();
    operations_table();
    ExitCode::SUCCESS
}

fn admit_table() {
    let heads: String = sides().iter().map(|side| format!("{:>9}", side.name)).collect();
    println!("{:32} {:>7}  {heads}", "admit: least stack, KiB", "depth");
    for (shape, nesting) in nesting::worst().iter().enumerate() {
        let least = sides().into_iter().map(|side| format!("{:>9}", least_stack(side.name, "admit", shape)));
        println!("{:32} {:>7}  {}", nesting.name, nesting.depth, least.collect::<String>());
    }
}

fn operations_table() {
    let columns = OPERATIONS.map(|operation| format!("{operation:>8}")).concat();
    let heads: String = sides().iter().map(|side| format!("  {:7}{columns}", side.name)).collect();
    println!("{:32} {:>7}{heads}", "operations: least stack, KiB", "depth");
    for (shape, deep) in on_large_stack(states).iter().enumerate() {
        let calls = on_large_stack(|| deep.calls());
        let there = |name: &str| calls.iter().any(|call| column(call.operation) == name);
        let least = sides().into_iter().map(|side| {
            let cell = |operation: &str| match there(operation) {
                true => least_stack(side.name, operation, shape),
                false => "-".to_string(),
            };
            format!("  {:7}{}", "", OPERATIONS.map(|operation| format!("{:>8}", cell(operation))).concat())
        });
        println!("{:32} {:>7}{}", deep.name, deep.depth, least.collect::<String>());
    }
}

/// The least stack that passes, by bisection over multiples of `STEP`.
fn least_stack(side: &str, operation: &str, shape: usize) -> String {
    let program = env::current_exe().expect("this program");
    let passes = |kib: usize| {
        let mut child = Command::new(&program);
        child.args([side, operation, &shape.to_string(), &kib.to_string()]);
        child.stdout(Stdio::null()).stderr(Stdio::null());
        child.status().expect("a child process").success()
    };
    if !passes(MOST) {
        return format!("> {MOST}");
    }
    if passes(LEAST) {
        return format!("<= {LEAST}");
    }
    let (mut fails, mut passed) = (LEAST, MOST);
    while passed - fails > STEP {
        let middle = (fails + passed) / 2 / STEP * STEP;
        if passes(middle) {
            passed = middle;
        } else {
            fails = middle;
        }
    }
    passed.to_string()
}

/// Run in the child: one call on a stack of the given size. An overflow ends the process by a signal.
fn attempt(side: &str, operation: &str, shape: usize, bytes: usize) -> ExitCode {
    let side = sides().into_iter().find(|known| known.name == side).expect("a side's name");
    if operation == "admit" {
        let file = &nesting::worst()[shape].file;
        run_on_stack(bytes, &mut || {
            std::hint::black_box((side.admit)(file)).expect("the worst nestings are admitted");
        });
        return ExitCode::SUCCESS;
    }
    let calls = on_large_stack(|| states()[shape].calls());
    let call = calls.into_iter().find(|call| column(call.operation) == operation).expect("an operation");
    let Call { operation, given, mut lent, .. } = call;
    let given: Vec<&[u8]> = given.iter().map(Vec::as_slice).collect();
    let mut lent: Vec<&mut [u8]> = lent.iter_mut().map(Vec::as_mut_slice).collect();
    run_on_stack(bytes, &mut || {
        let reply = ask(side.operations, operation, &given, &mut lent);
        assert_eq!(0, std::hint::black_box(reply).refusal());
    });
    ExitCode::SUCCESS
}

type Work<'a> = &'a mut dyn FnMut();

extern "C" fn do_work(work: *mut c_void) -> *mut c_void {
    // SAFETY: `run_on_stack` passes a `Work` and waits for this thread to end.
    let work = unsafe { &mut *work.cast::<Work>() };
    work();
    ptr::null_mut()
}

/// Large enough for a `pthread_attr_t` of any Linux.
#[repr(C, align(16))]
struct Attributes([u8; 128]);

extern "C" {
    fn mmap(
        at: *mut c_void,
        length: usize,
        protection: c_int,
        flags: c_int,
        file: c_int,
        offset: i64,
    ) -> *mut c_void;
    fn mprotect(at: *mut c_void, length: usize, protection: c_int) -> c_int;
    fn pthread_attr_init(attributes: *mut Attributes) -> c_int;
    fn pthread_attr_setstack(attributes: *mut Attributes, stack: *mut c_void, size: usize) -> c_int;
    fn pthread_create(
        thread: *mut usize,
        attributes: *const Attributes,
        start: extern "C" fn(*mut c_void) -> *mut c_void,
        argument: *mut c_void,
    ) -> c_int;
    fn pthread_join(thread: usize, result: *mut *mut c_void) -> c_int;
}

const PROTECTION_NONE: c_int = 0;
const PROTECTION_READ_WRITE: c_int = 3;
/// Private, anonymous, no swap space reserved.
const MAP_FLAGS: c_int = 0x2 | 0x20 | 0x4000;
const BELOW: usize = 64 << 20;

/// Runs the work on a stack allocated here: a thread of std has one guard page below its stack, this one has
/// `BELOW` bytes of forbidden pages.
fn run_on_stack(bytes: usize, mut work: Work) {
    // SAFETY: the C library's functions are called as their manual pages say; the stack stays mapped until
    // the process ends.
    unsafe {
        let room = mmap(ptr::null_mut(), BELOW + bytes, PROTECTION_NONE, MAP_FLAGS, -1, 0);
        assert!(room as isize != -1, "no room for a stack");
        let stack = room.cast::<u8>().add(BELOW).cast::<c_void>();
        assert_eq!(0, mprotect(stack, bytes, PROTECTION_READ_WRITE));
        let mut attributes = Attributes([0; 128]);
        assert_eq!(0, pthread_attr_init(&mut attributes));
        assert_eq!(0, pthread_attr_setstack(&mut attributes, stack, bytes));
        let mut thread = 0usize;
        let argument = ptr::from_mut(&mut work).cast();
        assert_eq!(0, pthread_create(&mut thread, &attributes, do_work, argument));
        assert_eq!(0, pthread_join(thread, ptr::null_mut()));
    }
}
