//! The stack that one call of the library uses, a report or reading alone, ordinary and composite: the memory below the caller's frame is painted, the
//! call made, and the deepest byte that lost its paint is looked for.

use twin::{decks, ffi, Sort, LONGEST_REPORT};

/// More than any call here uses; the thread's stack is larger still.
const PAINTED: usize = 1 << 20;
const PAINT: u8 = 0xA5;
/// The frames of the painting loop itself.
const KEPT: usize = 4096;

/// A report into the buffer, or reading alone where there is none.
#[inline(never)]
fn used(sort: Sort, deck: &[u8], report: Option<&mut [u8]>) -> usize {
    let here = 0u8;
    let top = std::hint::black_box(&here) as *const u8 as usize - KEPT;
    let bottom = top - PAINTED;
    for at in bottom..top {
        // SAFETY: below this frame, within the thread's own stack, and of no use to anyone before the call.
        unsafe { std::ptr::write_volatile(at as *mut u8, PAINT) };
    }
    let told = match report {
        Some(report) => ffi::report(sort, deck, report),
        None => ffi::read(sort, deck),
    };
    assert!(told.0 == 0, "the deck is refused: {told:?}");
    let deepest = (bottom..top).find(|&at| unsafe { std::ptr::read_volatile(at as *const u8) } != PAINT);
    deepest.map_or(0, |at| top + KEPT - at)
}

fn main() {
    let (ordinary, composite) = (Sort::Ordinary, Sort::Composite);
    let sizes = [(ordinary, 1, 1), (ordinary, 4, 2), (ordinary, 16, 4), (composite, 1, 8), (composite, 16, 8)];
    for (sort, chemicals, receptors) in sizes {
        let deck = decks::everyday(sort, 1, chemicals, receptors);
        let measured = std::thread::Builder::new()
            .stack_size(4 * PAINTED)
            .spawn(move || (used(sort, &deck, Some(&mut vec![0; LONGEST_REPORT])), used(sort, &deck, None)))
            .expect("a thread")
            .join()
            .expect("a measurement");
        let stages = if sort == composite { " stages" } else { "" };
        println!("{chemicals} × {receptors}{stages}: {} bytes of stack, reading alone {}", measured.0, measured.1);
    }
}
