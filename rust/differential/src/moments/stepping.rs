//! Single steps of x86-64 Linux: with the trap flag set, a signal comes after each instruction.

use std::arch::asm;
use std::ffi::c_int;
use std::ptr;
use std::slice;
use std::sync::atomic::{AtomicPtr, Ordering};
use std::sync::Mutex;

use super::{Change, Log, Then};

const SIGTRAP: c_int = 5;

/// What libc returns where a signal can have no handler.
const SIG_ERR: usize = usize::MAX;

extern "C" {
    /// libc's: says who handles a signal from now on, and returns who did.
    fn signal(number: c_int, handler: usize) -> usize;
}

/// Held while a call is watched: one at a time.
static TURN: Mutex<()> = Mutex::new(());

/// The watch of that call, for the signal's handler.
static WATCH: AtomicPtr<Watch> = AtomicPtr::new(ptr::null_mut());

struct Watch {
    memory: *mut u8,
    /// The memory after the step before.
    before: Vec<u8>,
    then: Then,
    log: Log,
    /// Whether the log had no room for a change.
    lost: bool,
}

impl Watch {
    /// With room for as many changes as there are bytes, some times over.
    fn of(memory: *mut u8, before: Vec<u8>, then: Then) -> Watch {
        let log = Log {
            steps: 0,
            changes: Vec::with_capacity(8 * before.len()),
        };
        Watch {
            memory,
            before,
            then,
            log,
            lost: false,
        }
    }

    /// Logs what the last instruction changed; takes no memory for that.
    fn look(&mut self) {
        self.log.steps += 1;
        for (place, before) in self.before.iter_mut().enumerate() {
            // SAFETY: the watched memory is as long as what it was before.
            let at = unsafe { self.memory.add(place) };
            // SAFETY: as above.
            let byte = unsafe { at.read_volatile() };
            if byte == *before {
                continue;
            }
            match self.then {
                Then::Leave => *before = byte,
                // SAFETY: as above.
                Then::PutBack => unsafe { at.write_volatile(*before) },
            }
            let changes = &mut self.log.changes;
            if changes.len() == changes.capacity() {
                self.lost = true;
                continue;
            }
            changes.push(Change {
                step: self.log.steps,
                place: place as u32,
                byte,
            });
        }
    }
}

/// The signal's handler.
extern "C" fn after_instruction(_: c_int) {
    // SAFETY: the pointer is null, or that of the one watch that there is. Nobody else uses it
    // while the trap flag is set, and the thread that set the flag is the one that stands here.
    if let Some(watch) = unsafe { WATCH.load(Ordering::Relaxed).as_mut() } {
        watch.look();
    }
}

/// Makes a call on memory and watches that memory; none where no signal came.
pub fn watched(memory: &mut [u8], then: Then, call: impl FnOnce(&mut [u8])) -> Option<Log> {
    let _turn = TURN.lock().unwrap_or_else(|poisoned| poisoned.into_inner());
    let before = memory.to_vec();
    let (place, length) = (memory.as_mut_ptr(), memory.len());
    let watch = Box::into_raw(Box::new(Watch::of(place, before, then)));
    WATCH.store(watch, Ordering::Relaxed);
    let handler: extern "C" fn(c_int) = after_instruction;
    // SAFETY: the handler has the type that the signal wants, and uses nothing but the watch.
    let others = unsafe { signal(SIGTRAP, handler as usize) };
    if others != SIG_ERR {
        // SAFETY: these are the pointer and the length of the slice, which is not used meanwhile.
        // The handler reads and puts back the same bytes, as they are in memory, between two
        // instructions of the call.
        stepped(|| call(unsafe { slice::from_raw_parts_mut(place, length) }));
        // SAFETY: the handler is the one of before.
        unsafe { signal(SIGTRAP, others) };
    }
    WATCH.store(ptr::null_mut(), Ordering::Relaxed);
    // SAFETY: the pointer came from a box, and the handler has it no more.
    let watch = unsafe { Box::from_raw(watch) };
    assert!(!watch.lost, "more changes than the log has room for");
    (watch.log.steps > 0).then_some(watch.log)
}

/// Makes a call with the trap flag set.
#[inline(never)]
fn stepped(call: impl FnOnce()) {
    // SAFETY: no other flag is changed, and the stack is as it was.
    unsafe { asm!("pushfq", "or qword ptr [rsp], 0x100", "popfq") };
    call();
    // SAFETY: as above.
    unsafe { asm!("pushfq", "and qword ptr [rsp], -0x101", "popfq") };
}
