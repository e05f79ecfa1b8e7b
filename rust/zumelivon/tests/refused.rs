//! A turn that found no memory.
//!
//! The library asks malloc for memory, and this program has a malloc of its own in front of the C library's.

use std::cell::Cell;
use std::ffi::c_void;
use zumelivon::{Done, Entered, Error, Event, MachineId, Module, Outcome, Start, Table};

unsafe extern "C" {
    fn __libc_malloc(size: usize) -> *mut c_void;
}

thread_local! {
    /// Whether this thread's next malloc is refused.
    static IS_REFUSED: Cell<bool> = const { Cell::new(false) };
}

#[unsafe(no_mangle)]
extern "C" fn malloc(size: usize) -> *mut c_void {
    if IS_REFUSED.replace(false) {
        return std::ptr::null_mut();
    }
    // SAFETY: it is what would be called without this function.
    unsafe { __libc_malloc(size) }
}

/// Counts what it is asked. Its enter call is the last thing before the library's turn.
#[derive(Default)]
struct Counts {
    handled: u32,
    entered: u32,
    refuses: bool,
}

impl Module for Counts {
    fn handle(&mut self, _: MachineId, event: &Event<'_>) -> Outcome {
        self.handled += 1;
        Outcome::next_state(event.state + 1, 0).insert_internal((1, vec![7; 5000]))
    }

    fn enter(&mut self, _: MachineId, _: u64, _: u64, _: u64) -> Entered {
        self.entered += 1;
        IS_REFUSED.set(self.refuses);
        Entered::keep()
    }
}

#[test]
fn a_turn_without_memory_is_made_again_with_the_same_answer() {
    let mut table = Table::new().unwrap();
    let start = Start::in_state(0, 0).entered(Entered::keep());
    let (id, _) = table.start(0, &start).unwrap();
    let (other, _) = table.start(0, &start).unwrap();
    let mut counts = Counts { refuses: true, ..Counts::default() };
    let number = table.cast(id, (1, vec![7; 1000])).unwrap();
    let before = table.look(id).unwrap();
    assert_eq!(table.turn(id, 1, &mut counts), Err(Error::NoMemory));
    assert_eq!(table.look(id).unwrap(), before);
    counts.refuses = false;

    // Other machines are served meanwhile.
    table.cast(other, 1).unwrap();
    table.turn(other, 1, &mut counts).unwrap();
    assert_eq!((counts.handled, counts.entered), (2, 2));

    let report = table.turn(id, 1, &mut counts).unwrap().unwrap();
    assert_eq!((report.done, report.event, report.after), (Done::Finished, Some(number), 1));
    assert_eq!((counts.handled, counts.entered), (2, 2));
    assert_eq!(report.inserted.len(), 1);

    // The next event is asked about.
    table.turn(id, 1, &mut counts).unwrap();
    assert_eq!((counts.handled, counts.entered), (3, 3));
}
