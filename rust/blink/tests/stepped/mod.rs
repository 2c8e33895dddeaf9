//! Calls that are stopped at each machine instruction. The processor's trap flag raises SIGTRAP after each instruction of the
//! thread, and the handler of that signal does what is to happen there: it stands between two steps of the call, also between
//! two stores of a page.

use std::any::Any;
use std::arch::asm;
use std::cell::Cell;
use std::ffi::{c_int, c_void};
use std::panic::{catch_unwind, resume_unwind, AssertUnwindSafe};
use std::ptr;
use std::sync::Once;

// What this takes of the C library, as glibc lays it out on x86-64.
#[repr(C)]
struct Sigaction {
    handler: usize,
    mask: [u64; 16],
    flags: c_int,
    restorer: usize,
}

extern "C" {
    fn sigaction(signal: c_int, action: *const Sigaction, before: *mut Sigaction) -> c_int;
}

const SIGTRAP: c_int = 5;

// The handler is given the interrupted thread's registers. An interrupted system call begins again.
const SA_SIGINFO: c_int = 4;
const SA_RESTART: c_int = 0x1000_0000;

// Where `ucontext_t` has the processor's flags, and the flag that traps after each instruction.
const FLAGS: usize = 40 + 8 * 17;
const TRAP_FLAG: u64 = 0x100;

// Sets the handler of a signal, of the whole process.
pub fn handle(signal: c_int, handler: extern "C" fn(c_int, *mut c_void, *mut c_void)) {
    let action = Sigaction { handler: handler as usize, mask: [0; 16], flags: SA_SIGINFO | SA_RESTART, restorer: 0 };
    // SAFETY: the action is laid out as glibc's, and its handler takes three parameters, as SA_SIGINFO says.
    assert_eq!(unsafe { sigaction(signal, &action, ptr::null_mut()) }, 0);
}

// What happens between two instructions, which says whether to go on so; and the panic that this ended in.
struct Between<'a> {
    act: &'a mut dyn FnMut() -> bool,
    panic: Option<Box<dyn Any + Send>>,
}

thread_local! {
    // The thread's own, while it runs by instructions. The handler runs on the same thread, and while it does, no trap comes.
    static BETWEEN: Cell<*mut Between<'static>> = const { Cell::new(ptr::null_mut()) };
}

extern "C" fn trapped(_signal: c_int, _info: *mut c_void, context: *mut c_void) {
    let between = BETWEEN.with(Cell::get);
    if between.is_null() {
        return;
    }
    // SAFETY: `by_instruction` waits for the call, and looks at this again only when no more traps come.
    let between = unsafe { &mut *between };
    let goes_on = catch_unwind(AssertUnwindSafe(|| (between.act)())).unwrap_or_else(|panic| {
        between.panic = Some(panic);
        false
    });
    if !goes_on {
        // SAFETY: the context is the interrupted thread's `ucontext_t`.
        unsafe { *context.cast::<u8>().add(FLAGS).cast::<u64>() &= !TRAP_FLAG }
    }
}

// Makes the call, and does `act` after each of its instructions, until that returns `false`. Only one of the two may take
// memory, or do anything else that no signal handler may do within itself. So where the call takes memory, a failed assertion
// in `act` may hang.
pub fn by_instruction<T>(call: impl FnOnce() -> T, mut act: impl FnMut() -> bool) -> T {
    static HANDLED: Once = Once::new();
    HANDLED.call_once(|| handle(SIGTRAP, trapped));
    let mut between = Between { act: &mut act, panic: None };
    BETWEEN.with(|it| it.set(ptr::addr_of_mut!(between).cast()));
    // SAFETY: the trap flag changes no other register, and the handler leaves all as they are. 0x100 is TRAP_FLAG.
    unsafe { asm!("pushfq", "or qword ptr [rsp], 0x100", "popfq") }
    let given = call();
    // SAFETY: as before.
    unsafe { asm!("pushfq", "and qword ptr [rsp], -0x101", "popfq") }
    BETWEEN.with(|it| it.set(ptr::null_mut()));
    if let Some(panic) = between.panic {
        resume_unwind(panic);
    }
    given
}
