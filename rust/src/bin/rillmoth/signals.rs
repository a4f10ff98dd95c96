//! Signals, while a file is being written: they wait until it is there whole, or gone. All that is not safe is here.
#![allow(unsafe_code)]

use std::sync::atomic::{AtomicI32, Ordering};

extern "C" {
    fn signal(number: i32, handler: usize) -> usize;
    fn raise(number: i32) -> i32;
}

// As Linux numbers them on the processors that this is built for.
const HANG_UP: i32 = 1;
const INTERRUPT: i32 = 2;
const TERMINATE: i32 = 15;
const FILE_SIZE: i32 = 25;
const WAITING: [i32; 3] = [HANG_UP, INTERRUPT, TERMINATE];

const DEFAULT: usize = 0;
const IGNORE: usize = 1;

/// The signal that came, 0 for none.
static CAME: AtomicI32 = AtomicI32::new(0);

extern "C" fn note(number: i32) {
    CAME.store(number, Ordering::SeqCst);
}

/// A file that grows past its limit is a write that fails, and no end without a word.
pub fn fail_at_the_limit() {
    unsafe { signal(FILE_SIZE, IGNORE) };
}

/// While it lives, signals that would end the program wait. When it is dropped, the program ends by the one that came.
pub struct Held {
    before: [usize; WAITING.len()],
}

impl Held {
    pub fn new() -> Held {
        let before = WAITING.map(|number| {
            let before = unsafe { signal(number, note as *const () as usize) };
            // What is ignored (nohup) stays ignored.
            if before == IGNORE {
                unsafe { signal(number, IGNORE) };
            }
            before
        });
        Held { before }
    }

    /// Whether one came.
    pub fn came(&self) -> bool {
        CAME.load(Ordering::SeqCst) != 0
    }
}

impl Drop for Held {
    fn drop(&mut self) {
        for (number, before) in WAITING.into_iter().zip(self.before) {
            unsafe { signal(number, before) };
        }
        let number = CAME.swap(0, Ordering::SeqCst);
        if number != 0 {
            unsafe {
                signal(number, DEFAULT);
                raise(number);
            }
        }
    }
}
