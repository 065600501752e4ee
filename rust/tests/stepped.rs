//! Puts and takes that are pending, without threads. A call is pending only beside another one that has reserved its
//! positions and isn't finished. So the processor runs that one a step at a time (the trap flag of x86-64), and the
//! other handle makes its call as soon as it finds a position gone. The header forbids calls from a signal handler;
//! these take no memory, and each handle has one call at a time.
#![cfg(all(target_arch = "x86_64", target_os = "linux"))]
use hokhtura::{Error, Ring};
use std::arch::asm;
use std::cell::Cell;
use std::ffi::c_void;
use std::ptr::null_mut;

const ROOM: usize = 7;
const SIGTRAP: i32 = 5;
const SA_SIGINFO: i32 = 4;
const TRAP_FLAG: i64 = 0x100;
/// Where a signal's context has the processor's flags, in words: `uc_mcontext.gregs[REG_EFL]`.
const FLAGS: usize = 5 + 17;

/// What runs after each step, until it returns true.
type AfterStep<'a> = &'a mut dyn FnMut() -> bool;

thread_local! {
    /// Where the `AfterStep` of this thread is.
    static AFTER_STEP: Cell<*mut c_void> = const { Cell::new(null_mut()) };
}

/// `struct sigaction`.
#[repr(C)]
struct Action {
    handler: extern "C" fn(i32, *mut c_void, *mut i64),
    mask: [u64; 16],
    flags: i32,
    restorer: usize,
}

extern "C" {
    fn sigaction(signal: i32, action: *const Action, before: *mut Action) -> i32;
}

extern "C" fn on_step(_: i32, _: *mut c_void, context: *mut i64) {
    // SAFETY: `by_steps` keeps it there while it runs.
    let after_step = unsafe { &mut *AFTER_STEP.get().cast::<AfterStep<'_>>() };
    if after_step() {
        // SAFETY: the context of the thread has its flags there.
        unsafe { *context.add(FLAGS) &= !TRAP_FLAG };
    }
}

/// Makes a call a step at a time, with this after each step.
fn by_steps<R>(call: impl FnOnce() -> R, mut after_step: AfterStep<'_>) -> R {
    AFTER_STEP.set((&raw mut after_step).cast());
    let action = Action { handler: on_step, mask: [0; 16], flags: SA_SIGINFO, restorer: 0 };
    // SAFETY: the flag makes the processor raise the signal after each instruction, and its handler is there.
    unsafe {
        assert_eq!(sigaction(SIGTRAP, &raw const action, null_mut()), 0);
        asm!("pushfq", "or dword ptr [rsp], 0x100", "popfq");
    }
    let result = call();
    // SAFETY: this only clears the flag.
    unsafe { asm!("pushfq", "and dword ptr [rsp], 0xfffffeff", "popfq") };
    result
}

/// Makes `call` beside another one of one word, `first`, which has reserved its position. `gone` says whether it has.
/// Returns what both return.
fn beside<A, B, H>(
    first: impl FnOnce() -> A,
    handle: &mut H,
    gone: impl Fn(&mut H) -> bool,
    call: impl Fn(&mut H) -> B,
) -> (A, Option<B>) {
    let mut found = None;
    let result = by_steps(first, &mut || {
        if gone(handle) {
            found = Some(call(handle));
        }
        found.is_some()
    });
    (result, found)
}

type Producer = hokhtura::Producer<u64>;
type Consumer = hokhtura::Consumer<u64>;

/// Each call of `finish` is for a `put` that is pending, and puts that word.
#[test]
fn puts_are_finished_with_their_own_words() -> Result<(), Error> {
    let (mut one, mut consumer) = Ring::new(ROOM)?.split()?;
    let mut two = one.try_clone()?;
    // A position that is reserved still counts as room, but a put of too many words says how many it could reserve.
    let gone = |two: &mut Producer| two.try_put_bulk(&[0; ROOM + 1]) == Err(Error::NoRoom) && two.left() < two.room();
    let put = |two: &mut Producer| two.put(2);
    assert_eq!(beside(|| one.put(1), &mut two, gone, put), (Ok(()), Some(Err(Error::Pending))));
    assert_eq!((two.put(9), two.finish_put(&[2]), two.finish()), (Err(Error::Open), Ok(1), Err(Error::NotOpen)));
    let put = |two: &mut Producer| two.try_put_one(4);
    assert_eq!(beside(|| one.put(3), &mut two, gone, put), (Ok(()), Some(Err(Error::Pending))));
    assert_eq!((two.finish(), two.finish_put(&[4])), (Err(Error::NotOpen), Ok(1)));
    let put = |two: &mut Producer| two.put(6);
    assert_eq!(beside(|| one.put(5), &mut two, gone, put), (Ok(()), Some(Err(Error::Pending))));
    assert_eq!((two.finish(), two.finish()), (Ok(()), Err(Error::NotOpen)));
    assert_eq!(consumer.taken().collect::<Vec<_>>(), [1, 2, 3, 4, 5, 6]);
    Ok(())
}

/// Each call of `finish` is for a `take` that is pending, and returns that word.
#[test]
fn takes_are_finished_with_their_own_words() -> Result<(), Error> {
    let (mut producer, mut one) = Ring::new(ROOM)?.split()?;
    let mut two = one.try_clone()?;
    producer.try_put_bulk(&[1, 2, 3, 4, 5, 6])?;
    let gone =
        |two: &mut Consumer| two.try_take_bulk(&mut [0; ROOM + 1]) == Err(Error::NoRoom) && two.left() < two.len();
    assert_eq!(beside(|| one.take(), &mut two, gone, Consumer::take), (Ok(1), Some(Err(Error::Pending))));
    assert_eq!((two.take(), two.finish_take(1), two.finish()), (Err(Error::Open), Ok(1), Err(Error::NotOpen)));
    let word = Cell::new(0);
    let take = |two: &mut Consumer| {
        let mut found = 0;
        let outcome = two.try_take_one(&mut found);
        word.set(found);
        outcome
    };
    assert_eq!(beside(|| one.take(), &mut two, gone, take), (Ok(3), Some(Err(Error::Pending))));
    assert_eq!((word.get(), two.finish(), two.finish_take(1)), (4, Err(Error::NotOpen), Ok(1)));
    assert_eq!(beside(|| one.take(), &mut two, gone, Consumer::take), (Ok(5), Some(Err(Error::Pending))));
    assert_eq!((two.finish(), two.finish()), (Ok(6), Err(Error::NotOpen)));
    Ok(())
}
