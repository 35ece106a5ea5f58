//! A program without std: all its memory is of one heap, over an array that it hands in. Beside that it
//! has a heap over a slice, and heaps by size. Its last line is `N passed, M failed`.
#![no_std]
#![allow(unknown_lints, unexpected_cfgs)]
// Before 1.68 what follows a refused request isn't stable.
#![cfg_attr(before_1_68, feature(default_alloc_error_handler))]

extern crate alloc;

use alloc::boxed::Box;
use alloc::collections::BTreeMap;
use alloc::string::ToString;
use alloc::vec::Vec;
use core::fmt::{self, Write};
use core::panic::PanicInfo;
use core::ptr::addr_of_mut;
use tlsf::{GlobalIn, Heap, Part, Parts};

#[global_allocator]
static HEAP: GlobalIn = GlobalIn::new();

const BYTES: usize = 1 << 17;
static mut MEMORY: [u8; BYTES] = [0; BYTES];

extern "C" {
    fn putchar(byte: i32) -> i32;
    fn abort() -> !;
}

/// Where C's putchar writes.
struct Console;

impl Write for Console {
    fn write_str(&mut self, text: &str) -> fmt::Result {
        for byte in text.bytes() {
            unsafe { putchar(byte.into()) };
        }
        Ok(())
    }
}

#[panic_handler]
fn panicked(info: &PanicInfo) -> ! {
    let _ = writeln!(Console, "FAILED: {}", info);
    unsafe { abort() }
}

/// How many cases passed, and failed.
#[derive(Default)]
struct Cases(u32, u32);

impl Cases {
    fn expect(&mut self, holds: bool, what: &str) {
        let word = if holds { "ok" } else { "FAILED" };
        self.0 += u32::from(holds);
        self.1 += u32::from(!holds);
        let _ = writeln!(Console, "{}: {}", word, what);
    }
}

/// Vectors, texts and a map, which come and go.
fn collections(cases: &mut Cases) {
    let mut squares = BTreeMap::new();
    let mut numbers = Vec::new();
    for k in 0..400_u32 {
        numbers.push(k);
        squares.insert(k * 7919 % 401, (k, k.to_string()));
    }
    squares.retain(|_, entry| entry.0 % 3 != 0);
    let are_whole = squares
        .iter()
        .all(|(key, (k, text))| k * 7919 % 401 == *key && k.to_string() == *text);
    cases.expect(numbers.iter().sum::<u32>() == 79_800, "a vector");
    cases.expect(squares.len() == 266 && are_whole, "a map of texts");
    cases.expect(
        HEAP.figures().blocks_live > 266 && HEAP.is_whole(),
        "their heap",
    );
}

#[repr(align(256))]
struct Line([u8; 256]);

fn alignments(cases: &mut Cases) {
    let lines: Vec<Box<Line>> = (0..20).map(|k| Box::new(Line([k; 256]))).collect();
    let are_whole = (0_u8..).zip(&lines).all(|(k, line)| line.0 == [k; 256]);
    let are_aligned = lines.iter().all(|line| line.0.as_ptr() as usize % 256 == 0);
    cases.expect(are_whole && are_aligned, "values at multiples of 256");
}

fn refusals(cases: &mut Cases) {
    let mut bytes: Vec<u8> = Vec::new();
    cases.expect(bytes.try_reserve(BYTES).is_err(), "more than there is");
    cases.expect(HEAP.figures().refusals[0] == 1, "which the heap tells");
}

fn over_a_slice(cases: &mut Cases) {
    let mut memory = [0; 4096];
    let heap = Heap::with_records(&mut memory, 4).expect("enough bytes");
    let (pair, line) = (heap.boxed((1_u8, 2_u64)), heap.zeroed(100));
    cases.expect(matches!(pair.as_deref(), Ok((1, 2))), "a pair in a slice");
    cases.expect(line.map_or(false, |line| *line == [0; 100]), "zeros in it");
    cases.expect(heap.zeroed(4096).is_none() && heap.is_whole(), "no more");
}

const TOLD: [Part; 2] = [
    Part {
        largest: 24,
        blocks: 6,
    },
    Part {
        largest: 300,
        blocks: 3,
    },
];

fn by_size(cases: &mut Cases) {
    let mut memory = [0; Parts::bytes(&TOLD)];
    let parts = Parts::new(&mut memory, &TOLD).expect("enough bytes");
    let small: Vec<_> = (0..7_u64).map(|k| parts.boxed([k; 3])).collect();
    let are_whole = (0..)
        .zip(&small)
        .take(6)
        .all(|(k, block)| matches!(block.as_deref(), Ok(numbers) if *numbers == [k; 3]));
    cases.expect(are_whole && small[6].is_err(), "six small blocks");
    let large: Vec<_> = (0..4).map(|_| parts.zeroed(300)).collect();
    cases.expect(large.iter().flatten().count() == 3, "three large ones");
    drop(small);
    let held = parts
        .figures(0)
        .map(|figures| (figures.most_blocks_live, figures.refused));
    cases.expect(held == Some((6, 1)) && parts.is_whole(), "their figures");
}

/// What C's start calls.
#[no_mangle]
pub extern "C" fn main() -> i32 {
    let mut cases = Cases::default();
    let memory = unsafe { &mut *addr_of_mut!(MEMORY) };
    cases.expect(!HEAP.is_whole(), "no heap before memory is handed in");
    cases.expect(HEAP.hand_in(memory), "memory handed in");
    collections(&mut cases);
    alignments(&mut cases);
    refusals(&mut cases);
    over_a_slice(&mut cases);
    by_size(&mut cases);
    let figures = HEAP.figures();
    cases.expect(
        figures.blocks_live == 0 && HEAP.is_whole(),
        "all is given back",
    );
    let _ = writeln!(Console, "{} passed, {} failed", cases.0, cases.1);
    i32::from(cases.1 > 0)
}
