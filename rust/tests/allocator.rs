//! The calls of a `Global` that isn't the program's own allocator.

use std::alloc::{GlobalAlloc, Layout};
use tlsf::Global;

/// Whether the bytes of a block are each this one.
unsafe fn holds(block: *const u8, bytes: usize, byte: u8) -> bool {
    (0..bytes).all(|at| unsafe { *block.add(at) } == byte)
}

#[test]
fn zeroed_memory_is_zero_where_other_bytes_were() {
    let heap: Global<65536> = Global::new();
    for align in [1, 16, 32, 4096] {
        let layout = Layout::from_size_align(10_000, align).unwrap();
        for _ in 0..3 {
            unsafe {
                let block = heap.alloc_zeroed(layout);
                assert!(!block.is_null() && holds(block, 10_000, 0));
                block.write_bytes(0xff, 10_000);
                heap.dealloc(block, layout);
            }
        }
    }
    assert!(heap.is_whole() && heap.figures().blocks_live == 0);
}

#[test]
fn reallocs_keep_an_alignment_above_16() {
    static WIDE: Global<{ 1 << 20 }> = Global::new();
    let heap = &WIDE;
    let mut held = Vec::new();
    for k in 0..200_usize {
        let align = 32 << (k % 3);
        let before = Layout::from_size_align(1 + k % 90, align).unwrap();
        let small = Layout::from_size_align(1 + k % 5 * 16, 1).unwrap();
        unsafe {
            held.push((heap.alloc(small), small));
            let block = heap.alloc(before);
            block.write_bytes(k as u8, before.size());
            held.push((heap.alloc(small), small));
            let grown = heap.realloc(block, before, 150 + k);
            assert!(!grown.is_null() && grown as usize % align == 0);
            assert!(holds(grown, before.size(), k as u8));
            held.push((grown, Layout::from_size_align(150 + k, align).unwrap()));
        }
    }
    for (block, layout) in held {
        unsafe { heap.dealloc(block, layout) };
    }
    assert_eq!(
        (heap.figures().blocks_live, heap.figures().refusals),
        (0, [0; 5])
    );
}

#[test]
fn a_block_that_shrinks_takes_no_byte_of_the_next() {
    for align in [16, 32, 64, 256] {
        let heap: Global<65536> = Global::new();
        let long = Layout::from_size_align(4096, align).unwrap();
        let gap = Layout::from_size_align(200 + 2 * align, align).unwrap();
        let next = Layout::from_size_align(300, 1).unwrap();
        unsafe {
            let (first, behind, block) = (heap.alloc(gap), heap.alloc(next), heap.alloc(long));
            behind.write_bytes(7, 300);
            block.write_bytes(9, 4096);
            heap.dealloc(first, gap);
            let shrunk = heap.realloc(block, long, 150);
            assert!(!shrunk.is_null() && shrunk as usize % align == 0);
            assert!(holds(shrunk, 150, 9) && holds(behind, 300, 7) && heap.is_whole());
            assert!(align <= 16 || (shrunk as usize) < behind as usize);
            heap.dealloc(shrunk, Layout::from_size_align(150, align).unwrap());
            heap.dealloc(behind, next);
        }
        assert_eq!(
            (heap.figures().blocks_live, heap.figures().refusals),
            (0, [0; 5])
        );
    }
}

#[test]
fn no_bytes_are_a_block_of_their_own() {
    let heap: Global<4096> = Global::new();
    let none = Layout::from_size_align(0, 1).unwrap();
    let some = Layout::from_size_align(100, 1).unwrap();
    unsafe {
        let (first, second) = (heap.alloc(none), heap.alloc(none));
        assert!(!first.is_null() && !second.is_null() && first != second);
        let block = heap.alloc(some);
        let shrunk = heap.realloc(block, some, 0);
        assert!(!shrunk.is_null() && heap.figures().blocks_live == 3);
        for block in [first, second, shrunk] {
            heap.dealloc(block, none);
        }
    }
    assert_eq!(
        (heap.figures().blocks_live, heap.figures().refusals),
        (0, [0; 5])
    );
}

#[test]
fn a_refused_realloc_keeps_the_block() {
    let heap: Global<16384> = Global::new();
    for align in [1, 64, 1024] {
        let layout = Layout::from_size_align(100, align).unwrap();
        unsafe {
            let block = heap.alloc(layout);
            block.write_bytes(3, 100);
            assert!(heap.realloc(block, layout, 20_000).is_null());
            assert!(holds(block, 100, 3) && heap.figures().blocks_live == 1);
            heap.dealloc(block, layout);
        }
    }
    assert_eq!(heap.figures().refusals, [3, 0, 0, 0, 0]);
}

#[test]
fn a_byte_in_front_of_a_block_is_told() {
    let heap: Global<4096> = Global::new();
    let layout = Layout::from_size_align(100, 1).unwrap();
    unsafe {
        let block = heap.alloc(layout);
        *block.sub(1) ^= 1;
        assert!(!heap.is_whole());
        *block.sub(1) ^= 1;
    }
    assert!(heap.is_whole());
}
