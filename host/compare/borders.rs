//! Memory with marked borders. A call that writes beside what it was lent is seen when that memory is given back.

use std::alloc::{GlobalAlloc, Layout, System};
use std::io::Write;

pub struct Bordered;

/// Few enough for rides left, so that a ledger that counts a pass beyond its columns has no other reason to refuse them.
const MARK: u8 = 0x27;

fn border(layout: Layout) -> usize {
    layout.align().max(16)
}

fn with_borders(layout: Layout) -> Option<Layout> {
    Layout::from_size_align(layout.size().checked_add(2 * border(layout))?, layout.align()).ok()
}

unsafe impl GlobalAlloc for Bordered {
    unsafe fn alloc(&self, layout: Layout) -> *mut u8 {
        let border = border(layout);
        let start = with_borders(layout).map_or(std::ptr::null_mut(), |whole| System.alloc(whole));
        if start.is_null() {
            return start;
        }
        start.write_bytes(MARK, border);
        start.add(border + layout.size()).write_bytes(MARK, border);
        start.add(border)
    }

    unsafe fn dealloc(&self, lent: *mut u8, layout: Layout) {
        let border = border(layout);
        let start = lent.sub(border);
        let marked = |from: *mut u8| std::slice::from_raw_parts(from, border).iter().all(|byte| *byte == MARK);
        if !marked(start) || !marked(lent.add(layout.size())) {
            // no memory may be taken here, so the words are fixed
            let _ = std::io::stderr().write_all(b"FAILED: a call wrote beside what it was lent\n");
            std::process::abort();
        }
        if let Some(whole) = with_borders(layout) {
            System.dealloc(start, whole);
        }
    }
}
