//! How often each side asks Rust's allocator for memory, a line for each class: its name, how many events, and for an
//! event here and in the original. A program of its own, since counting takes time.

use bench::classes::Class;
use bench::sides::{self, Side};
use std::alloc::{GlobalAlloc, Layout, System};
use std::sync::atomic::{AtomicUsize, Ordering};

struct Counting;

static ASKED: AtomicUsize = AtomicUsize::new(0);

// Everything goes on to the system's allocator, which keeps the promises.
unsafe impl GlobalAlloc for Counting {
    unsafe fn alloc(&self, layout: Layout) -> *mut u8 {
        ASKED.fetch_add(1, Ordering::Relaxed);
        System.alloc(layout)
    }

    unsafe fn realloc(&self, old: *mut u8, layout: Layout, size: usize) -> *mut u8 {
        ASKED.fetch_add(1, Ordering::Relaxed);
        System.realloc(old, layout, size)
    }

    unsafe fn dealloc(&self, old: *mut u8, layout: Layout) {
        System.dealloc(old, layout)
    }
}

#[global_allocator]
static COUNTING: Counting = Counting;

fn asked(side: &mut dyn Side) -> usize {
    let before = ASKED.load(Ordering::Relaxed);
    side.pass();
    ASKED.load(Ordering::Relaxed) - before
}

fn main() {
    for class in Class::all() {
        let events = class.cases.len();
        let [ours, theirs] =
            sides::both(&class).map(|mut side| asked(&mut *side) as f64 / events as f64);
        println!("{} {events} {ours:.2} {theirs:.2}", class.name);
    }
}
