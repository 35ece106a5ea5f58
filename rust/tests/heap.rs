//! A heap over a slice: what it lends, refuses and takes back.

use std::cell::Cell;
use tlsf::Heap;

/// Counts how often one is dropped.
struct Dropped<'c>(&'c Cell<usize>);

impl Drop for Dropped<'_> {
    fn drop(&mut self) {
        self.0.set(self.0.get() + 1);
    }
}

#[repr(align(64))]
struct Line([u8; 64]);

#[repr(align(4096))]
struct Page([u8; 4096]);

#[test]
fn values_are_kept_and_dropped_once() {
    let mut memory = [0; 16384];
    let count = Cell::new(0);
    let heap = Heap::new(&mut memory).unwrap();
    let blocks: Vec<_> = (0..50)
        .map(|k| heap.boxed((k, Dropped(&count))).ok().unwrap())
        .collect();
    assert!(blocks.iter().enumerate().all(|(k, block)| block.0 == k));
    assert_eq!(heap.figures().blocks_live, 50);
    assert!(heap.is_whole());
    drop(blocks);
    assert_eq!(count.get(), 50);
    assert_eq!(
        (heap.figures().blocks_live, heap.figures().bytes_live),
        (0, 0)
    );
}

#[test]
fn blocks_are_aligned_and_apart() {
    let mut memory = vec![0; 1 << 16];
    let range = memory.as_ptr_range();
    let heap = Heap::new(&mut memory).unwrap();
    let line = heap.boxed(Line([7; 64])).ok().unwrap();
    let page = heap.boxed(Page([8; 4096])).ok().unwrap();
    let mut bytes = heap.zeroed(1000).unwrap();
    assert!(bytes.len() == 1000 && bytes.iter().all(|byte| *byte == 0));
    bytes.fill(9);
    assert_eq!(&line.0 as *const _ as usize % 64, 0);
    assert_eq!(&page.0 as *const _ as usize % 4096, 0);
    assert!(line.0.iter().all(|byte| *byte == 7) && page.0.iter().all(|byte| *byte == 8));
    for at in [line.0.as_ptr(), page.0.as_ptr(), bytes.as_ptr()] {
        assert!(range.contains(&at));
    }
}

#[test]
fn what_has_no_room_is_refused() {
    let mut memory = [0; 8192];
    assert!(Heap::new(&mut memory[..1000]).is_none());
    assert!(Heap::new(&mut []).is_none());
    assert!(Heap::with_records(&mut memory, 0).is_none());
    assert!(Heap::with_records(&mut memory, 65_536).is_none());
    let heap = Heap::with_records(&mut memory, 3).unwrap();
    assert_eq!(heap.boxed([1_u8; 9000]).err(), Some([1; 9000]));
    let kept = (heap.boxed(1_u64).unwrap(), heap.boxed(2_u64).unwrap());
    assert_eq!(heap.boxed(3_u64).err(), Some(3));
    assert!(heap.zeroed(1 << 40).is_none());
    assert_eq!((*kept.0, *kept.1, heap.figures().records_used), (1, 2, 3));
    assert_eq!(heap.figures().refusals[..2], [2, 1]);
}

#[test]
fn a_slice_may_begin_anywhere() {
    let mut memory = [0; 4096];
    for skip in 0..24 {
        let heap = Heap::new(&mut memory[skip..]).unwrap();
        let value = heap.boxed(u128::MAX).unwrap();
        assert_eq!(
            (*value, &*value as *const u128 as usize % 16),
            (u128::MAX, 0)
        );
    }
    let heap = Heap::new(&mut memory).unwrap();
    std::thread::scope(|scope| {
        scope.spawn(move || assert_eq!(*heap.boxed(5).unwrap(), 5));
    });
}

#[test]
fn a_block_of_no_bytes_is_freed_once() {
    let mut memory = [0; 4096];
    let heap = Heap::new(&mut memory).unwrap();
    let (none, other) = (heap.zeroed(0).unwrap(), heap.zeroed(0).unwrap());
    let unit = heap.boxed(()).unwrap();
    assert!(none.is_empty() && none.as_ptr() != other.as_ptr());
    assert_eq!((heap.figures().blocks_live, *unit), (3, ()));
    drop((none, unit));
    let first = heap.boxed(1_u64).unwrap();
    drop(other);
    let second = heap.boxed(2_u64).unwrap();
    assert_eq!((*first, *second, heap.figures().blocks_live), (1, 2, 2));
    drop((first, second));
    assert_eq!(
        (heap.figures().blocks_live, heap.figures().refusals),
        (0, [0; 5])
    );
    assert!(heap.is_whole());
}

/// A value at a multiple of 32, of a size that isn't one of 64.
#[repr(align(32))]
struct Half([u8; 32]);

#[test]
fn each_alignment_holds_beside_small_blocks() {
    let mut memory = vec![0; 1 << 17];
    let heap = Heap::new(&mut memory).unwrap();
    let mut small = Vec::new();
    let mut halves = Vec::new();
    let mut lines = Vec::new();
    for k in 0..100_u8 {
        small.push(heap.zeroed(usize::from(k) % 7 * 16 + 1).unwrap());
        halves.push(heap.boxed(Half([k; 32])).ok().unwrap());
        lines.push(heap.boxed(Line([k; 64])).ok().unwrap());
    }
    assert!(halves.iter().all(|half| half.0.as_ptr() as usize % 32 == 0));
    assert!(lines.iter().all(|line| line.0.as_ptr() as usize % 64 == 0));
    assert!((0..100).all(|k| halves[k].0 == [k as u8; 32] && lines[k].0 == [k as u8; 64]));
    assert!(halves.iter().any(|half| half.0.as_ptr() as usize % 64 != 0));
}

#[test]
fn zeroed_bytes_are_zero_where_others_were() {
    let mut memory = [0; 8192];
    let heap = Heap::new(&mut memory).unwrap();
    for _ in 0..3 {
        let mut bytes = heap.zeroed(4000).unwrap();
        assert!(bytes.iter().all(|byte| *byte == 0));
        bytes.fill(0xff);
    }
}

#[test]
fn a_heap_has_a_pool_and_ends() {
    let mut memory = [0; 4096];
    let least = (1..4096).find(|bytes| Heap::with_records(&mut memory[..*bytes], 4).is_some());
    assert!(least.is_some());
    {
        let heap = Heap::with_records(&mut memory[..least.unwrap()], 4).unwrap();
        assert!(heap.boxed(1_u64).is_ok());
    }
    assert!(memory[..16].iter().all(|byte| *byte == 0));
}

#[test]
fn a_byte_in_front_of_a_block_is_told() {
    let mut memory = [0; 4096];
    let heap = Heap::new(&mut memory).unwrap();
    let block = heap.boxed(1_u64).unwrap();
    let front = (&*block as *const u64 as *mut u8).wrapping_sub(1);
    unsafe { *front ^= 1 };
    assert!(!heap.is_whole());
    unsafe { *front ^= 1 };
    assert!(heap.is_whole());
}

/// Tells how many blocks are live when it is dropped.
struct Watch<'a> {
    heap: &'a Heap<'a>,
    live: &'a Cell<usize>,
}

impl Drop for Watch<'_> {
    fn drop(&mut self) {
        self.live.set(self.heap.figures().blocks_live);
    }
}

#[test]
fn a_value_is_dropped_while_its_block_is_live() {
    let live = Cell::new(0);
    let mut memory = vec![0; 8192];
    let heap = Heap::new(&mut memory).unwrap();
    let watch = Watch {
        heap: &heap,
        live: &live,
    };
    drop(heap.boxed(watch).ok().unwrap());
    assert_eq!(live.get(), 1);
    assert_eq!(heap.figures().blocks_live, 0);
}
