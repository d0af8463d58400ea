//! How much stack a call takes: it is run on a stack of its own whose bytes are all the same before, and the deepest byte that has
//! changed tells.

use compare::{Proved, Service};
use reference::generate::{cut, directed, Case, Rows};
use std::arch::asm;
use std::hint::black_box;

/// What stands in the stack before the call, and how long it is.
const UNTOUCHED: u8 = 0xa5;
const LENGTH: usize = 1 << 20;

/// What is lent to the function that runs on the other stack.
type Call<'a> = &'a mut dyn FnMut();

/// Runs the function on another stack that ends at `top`.
///
/// # Safety
/// The memory below `top` must be free for as much as the function takes, and `top` a multiple of 16.
unsafe fn run_on(top: *mut u8, function: extern "C" fn(*mut Call), call: *mut Call) {
    // SAFETY: r12 is kept by every function of the C ABI, so that the old stack is found again.
    unsafe {
        asm!(
            "xchg rsp, r12",
            "call r13",
            "mov rsp, r12",
            inout("r12") top => _,
            in("r13") function,
            in("rdi") call,
            clobber_abi("C"),
        );
    }
}

extern "C" fn calls(call: *mut Call) {
    // SAFETY: `used` lends it for the time of the call.
    unsafe { (*call)() }
}

/// The bytes of stack that a call takes.
fn used(mut call: impl FnMut()) -> usize {
    let mut stack = vec![UNTOUCHED; LENGTH];
    let top = stack.as_mut_ptr_range().end;
    let top = top.wrapping_sub(top.addr() % 16);
    let mut call: Call = &mut call;
    // SAFETY: the stack is a megabyte, and its end was rounded down to 16.
    unsafe { run_on(top, calls, &mut call) };
    let stack = black_box(stack);
    LENGTH - stack.iter().position(|&byte| byte != UNTOUCHED).unwrap_or(LENGTH)
}

/// The stack of each call on one case.
fn of_case(case: &Case) -> [(&'static str, usize); 7] {
    let (mut table, mut output) = (case.table.clone(), vec![0; 65_547]);
    let Rows { words, counts: of_lines, numbers } = cut(&case.list).rows;
    let mut desk = [case.desk.heard, case.desk.accepted, case.desk.refused];
    let (mut counts, mut buffer) = ([0; 4], vec![0; 65_536]);
    [
        ("read", used(|| _ = black_box(Proved::read(&case.list, &mut counts)))),
        ("check", used(|| _ = black_box(Proved::check(&case.list, &case.table)))),
        ("make", used(|| _ = black_box(Proved::make(&case.list, &case.inputs, &mut table)))),
        ("show", used(|| _ = black_box(Proved::show(&case.list, &case.table, case.line)))),
        ("desk call", used(|| _ = black_box(Proved::desk(&mut desk, &case.list, &case.table)))),
        ("respond", used(|| _ = black_box(Proved::respond(&case.stdin, &mut output)))),
        ("write", used(|| _ = black_box(Proved::write(&words, &of_lines, &numbers, &mut buffer)))),
    ]
}

/// The most that each call takes over the given cases.
pub fn report() {
    let mut most = [("", 0); 7];
    let mut count = 0;
    let large = (0..8).map(reference::generate::large);
    let chance = reference::generate::cases(1, 2_000);
    for case in directed().into_iter().map(|directed| directed.case).chain(large).chain(chance) {
        count += 1;
        for (most, (name, used)) in most.iter_mut().zip(of_case(&case)) {
            *most = (name, most.1.max(used));
        }
    }
    println!("| call | stack at most, bytes, over {count} cases |");
    println!("|---|---|");
    for (name, used) in most {
        println!("| {name} | {used} |");
    }
    println!("| nothing | {} |", used(|| {}));
}
