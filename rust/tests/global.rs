//! All of this program's memory is of one heap: the harness's, too.

use std::alloc::{alloc, dealloc, realloc, Layout};
use std::collections::BTreeMap;
use tlsf::Global;

const BYTES: usize = 1 << 23;

#[global_allocator]
static HEAP: Global<BYTES> = Global::new();

#[test]
fn a_vec_and_a_map() {
    let before = HEAP.figures();
    let mut numbers = Vec::new();
    let mut squares = BTreeMap::new();
    for k in 0..20_000_u64 {
        numbers.push(k);
        squares.insert(k * 7919 % 20_011, (k, k.to_string()));
    }
    squares.retain(|_, entry| entry.0 % 3 != 0);
    assert_eq!(numbers.iter().sum::<u64>(), 19_999 * 20_000 / 2);
    assert_eq!(squares.len(), 13_333);
    assert!(squares
        .iter()
        .all(|(key, (k, text))| k * 7919 % 20_011 == *key && k.to_string() == *text));
    let figures = HEAP.figures();
    assert!(figures.bytes_live > before.bytes_live + 20_000 * 8 && figures.blocks_live > 13_333);
    assert!(HEAP.is_whole());
}

#[test]
fn alignments() {
    for shift in 0..=16 {
        let layout = Layout::from_size_align(100, 1 << shift).unwrap();
        unsafe {
            let block = alloc(layout);
            assert!(!block.is_null() && block as usize % layout.align() == 0);
            block.write_bytes(shift, 100);
            let grown = realloc(block, layout, 5000);
            assert!(!grown.is_null() && grown as usize % layout.align() == 0);
            assert!((0..100).all(|at| *grown.add(at) == shift));
            dealloc(grown, Layout::from_size_align(5000, 1 << shift).unwrap());
        }
    }
}

#[test]
fn what_has_no_room_is_refused() {
    let mut bytes: Vec<u8> = Vec::new();
    assert!(bytes.try_reserve(BYTES).is_err());
    assert!(bytes.try_reserve(1 << 40).is_err());
    assert!(unsafe { alloc(Layout::from_size_align(16, 1 << 22).unwrap()) }.is_null());
    bytes.extend([1, 2, 3]);
    assert_eq!(bytes, [1, 2, 3]);
    assert!(HEAP.figures().refusals[0] >= 2 && HEAP.figures().refusals[3] >= 1);
}

#[test]
fn threads() {
    let sums: Vec<u64> = std::thread::scope(|scope| {
        let sum = |from: u64| {
            (from..from + 5000)
                .map(|k| k.to_string().parse::<u64>().unwrap())
                .sum()
        };
        let started: Vec<_> = (0..4).map(|k| scope.spawn(move || sum(1000 * k))).collect();
        started.into_iter().map(|one| one.join().unwrap()).collect()
    });
    let expected: Vec<u64> = (0..4).map(|k| 5000 * 1000 * k + 4999 * 5000 / 2).collect();
    assert_eq!(sums, expected);
    assert!(HEAP.is_whole());
}
