//! The calls of a `GlobalIn` that isn't the program's own allocator. tests/rust.d has a program without
//! std, whose allocator it is.

use std::alloc::{GlobalAlloc, Layout};
use tlsf::GlobalIn;

fn bytes(count: usize) -> &'static mut [u8] {
    Box::leak(vec![0; count].into_boxed_slice())
}

#[test]
fn before_memory_is_handed_in_each_call_is_refused() {
    let heap = GlobalIn::new();
    let layout = Layout::from_size_align(100, 8).unwrap();
    assert!(unsafe { heap.alloc(layout) }.is_null());
    assert!(!heap.is_whole() && heap.figures() == Default::default());
    assert!(!heap.hand_in(bytes(100)) && !heap.hand_in(&mut []));
    assert!(unsafe { heap.alloc(layout) }.is_null());
    assert!(heap.hand_in(bytes(4096)) && heap.is_whole());
    assert!(!unsafe { heap.alloc(layout) }.is_null());
}

#[test]
fn blocks_lie_in_the_memory_that_was_handed_in_first() {
    let heap = GlobalIn::default();
    let (memory, other) = (bytes(8192), bytes(65_536));
    let range = memory.as_ptr_range();
    assert!(heap.hand_in(memory));
    assert!(!heap.hand_in(other));
    for (size, align) in [(1, 1), (100, 16), (300, 64), (40, 1024)] {
        let layout = Layout::from_size_align(size, align).unwrap();
        unsafe {
            let block = heap.alloc(layout);
            assert!(range.contains(&(block as *const u8)) && block as usize % align == 0);
            block.write_bytes(7, size);
            let grown = heap.realloc(block, layout, 900);
            assert!(range.contains(&(grown as *const u8)) && grown as usize % align == 0);
            assert!((0..size).all(|at| *grown.add(at) == 7));
            heap.dealloc(grown, Layout::from_size_align(900, align).unwrap());
        }
    }
    let large = Layout::from_size_align(9000, 1).unwrap();
    assert!(unsafe { heap.alloc(large) }.is_null());
    assert_eq!(
        (heap.figures().blocks_live, heap.figures().refusals),
        (0, [1, 0, 0, 0, 0])
    );
    assert!(heap.is_whole());
}

#[test]
fn threads_wait_for_each_other() {
    static HEAP: GlobalIn = GlobalIn::new();
    assert!(HEAP.hand_in(bytes(1 << 20)));
    std::thread::scope(|scope| {
        for word in 0..4_u8 {
            scope.spawn(move || {
                for k in 0..2000_usize {
                    let layout = Layout::from_size_align(1 + k % 500, 8).unwrap();
                    unsafe {
                        let block = HEAP.alloc(layout);
                        block.write_bytes(word, layout.size());
                        assert!((0..layout.size()).all(|at| *block.add(at) == word));
                        HEAP.dealloc(block, layout);
                    }
                }
            });
        }
    });
    assert!(HEAP.is_whole() && HEAP.figures().blocks_live == 0);
}
