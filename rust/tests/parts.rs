//! Heaps by size: what they lend and refuse, and how much memory they take.

use tlsf::{Part, Parts, PARTS_MOST};

/// Of 64 bytes, 2,048 and 41,984, as a program of tests/trace may tell them.
const TOLD: [Part; 3] = [part(64, 100), part(2048, 10), part(41_984, 2)];

const fn part(largest: u32, blocks: u32) -> Part {
    Part { largest, blocks }
}

/// A number of 64 bits that looks random.
fn next(state: &mut u64) -> u64 {
    *state ^= *state << 13;
    *state ^= *state >> 7;
    *state ^= *state << 17;
    *state
}

#[test]
fn each_part_serves_as_many_blocks_as_told() {
    let mut memory = vec![0; Parts::bytes(&TOLD)];
    let parts = Parts::new(&mut memory, &TOLD).unwrap();
    for (number, told) in TOLD.iter().enumerate() {
        let largest = told.largest as usize;
        let mut blocks: Vec<_> = (0..told.blocks)
            .map(|k| parts.zeroed(largest - k as usize % 40).unwrap())
            .collect();
        assert!(parts.zeroed(largest).is_none());
        let at = blocks.len() / 2;
        drop(blocks.swap_remove(at));
        blocks.push(parts.zeroed(largest).unwrap());
        let figures = parts.figures(number).unwrap();
        assert_eq!(figures.told, *told);
        assert_eq!(figures.blocks_live, told.blocks as usize);
        assert_eq!(figures.most_blocks_live, told.blocks as usize);
        assert_eq!(figures.refused, 1);
    }
    assert!(parts.figures(3).is_none() && parts.figures(PARTS_MOST).is_none());
    assert!(parts.is_whole());
}

#[test]
fn random_programs_within_what_was_told_are_never_refused() {
    let mut state = 88_172_645_463_325_252;
    for _ in 0..5 {
        let mut memory = vec![0; Parts::bytes(&TOLD)];
        let parts = Parts::new(&mut memory, &TOLD).unwrap();
        let mut held: [Vec<_>; 3] = Default::default();
        for _ in 0..3000 {
            let number = next(&mut state) as usize % 3;
            let told = TOLD[number];
            if held[number].len() < told.blocks as usize && next(&mut state) % 3 > 0 {
                let least = if number == 0 {
                    0
                } else {
                    TOLD[number - 1].largest + 1
                };
                let bytes = least + next(&mut state) as u32 % (told.largest - least + 1);
                held[number].push(parts.zeroed(bytes as usize).expect("a block of its part"));
            } else if !held[number].is_empty() {
                let at = next(&mut state) as usize % held[number].len();
                let mut block = held[number].swap_remove(at);
                assert!(block.iter().all(|byte| *byte == 0));
                block.fill(0xff);
            }
        }
        assert!(parts.is_whole() && parts.above_all() == 0);
        drop(held);
        assert!((0..3).all(|k| parts.figures(k).unwrap().blocks_live == 0));
    }
}

#[repr(align(64))]
struct Line([u8; 64]);

#[test]
fn an_alignment_counts_as_bytes() {
    let told = [part(111, 5), part(112, 9)];
    let mut memory = vec![0; Parts::bytes(&told)];
    let parts = Parts::new(&mut memory, &told).unwrap();
    let lines: Vec<_> = (0..9_u8)
        .map(|k| parts.boxed(Line([k; 64])).ok().unwrap())
        .collect();
    assert!(lines.iter().all(|line| line.0.as_ptr() as usize % 64 == 0));
    assert!((0..9).all(|k| lines[k].0 == [k as u8; 64]));
    assert_eq!(parts.boxed(Line([1; 64])).err().unwrap().0, [1; 64]);
    assert_eq!(parts.figures(0).unwrap().blocks_live, 0);
    assert_eq!(parts.figures(1).unwrap().refused, 1);
    drop(lines);
    assert_eq!(parts.figures(1).unwrap().blocks_live, 0);
    assert!(parts.is_whole());
}

#[repr(align(4096))]
struct Page([u8; 100]);

#[test]
fn a_page_begins_at_its_alignment() {
    let told = [part(64, 1), part(8192, 3)];
    let mut memory = vec![0; Parts::bytes(&told)];
    let parts = Parts::new(&mut memory, &told).unwrap();
    let pages: Vec<_> = (0..3_u8)
        .map(|k| parts.boxed(Page([k; 100])).ok().unwrap())
        .collect();
    assert!(pages.iter().all(|page| page.0.as_ptr() as usize % 4096 == 0));
    assert!((0..3).all(|k| pages[k].0 == [k as u8; 100]));
    assert!(parts.boxed(Page([9; 100])).is_err());
    drop(pages);
    assert_eq!(parts.figures(1).unwrap().blocks_live, 0);
    assert!(parts.is_whole());
}

#[test]
fn the_most_blocks_are_told_when_fewer_are_live() {
    let mut memory = vec![0; Parts::bytes(&TOLD)];
    let parts = Parts::new(&mut memory, &TOLD).unwrap();
    for (number, bytes) in [(0, 64), (1, 2048)] {
        let three: Vec<_> = (0..3).map(|_| parts.zeroed(bytes).unwrap()).collect();
        drop(three);
        let one = parts.zeroed(bytes).unwrap();
        let figures = parts.figures(number).unwrap();
        assert_eq!((figures.blocks_live, figures.most_blocks_live), (1, 3));
        drop(one);
    }
    assert_eq!(parts.figures(2).unwrap().most_blocks_live, 0);
}

#[test]
fn a_spoiled_front_is_told_of_each_part() {
    for bytes in [64, 2048, 41_984] {
        let mut memory = vec![0; Parts::bytes(&TOLD)];
        let parts = Parts::new(&mut memory, &TOLD).unwrap();
        let held: Vec<_> = [64, 2048, 41_984]
            .map(|size| parts.zeroed(size).unwrap())
            .into();
        let block = parts.zeroed(bytes).unwrap();
        // The byte in front of a block is no Rust value's.
        let front = unsafe { (block.as_ptr() as *mut u8).sub(1) };
        assert!(parts.is_whole());
        unsafe { *front ^= 1 };
        assert!(!parts.is_whole());
        unsafe { *front ^= 1 };
        assert!(parts.is_whole());
        drop((held, block));
    }
}

#[test]
fn what_is_above_the_last_size_is_refused() {
    let told = [part(64, 1)];
    let mut memory = vec![0; Parts::bytes(&told)];
    let parts = Parts::new(&mut memory, &told).unwrap();
    assert!(parts.zeroed(65).is_none() && parts.zeroed(usize::MAX / 4).is_none());
    assert_eq!(
        (parts.above_all(), parts.figures(0).unwrap().refused),
        (2, 0)
    );
    assert_eq!(*parts.zeroed(64).unwrap(), [0; 64]);
    assert_eq!(parts.zeroed(0).unwrap().len(), 0);
    assert!(parts.boxed(()).is_ok());
}

extern "C" {
    fn tlsf_size_records(records: u32) -> usize;
}

#[test]
fn memory_is_enough_wherever_it_begins_and_no_less_is() {
    let needed = Parts::bytes(&TOLD);
    let mut memory = vec![0; needed + 24];
    for skip in 0..24 {
        let parts = Parts::new(&mut memory[skip..skip + needed], &TOLD).unwrap();
        assert_eq!(parts.zeroed(64).unwrap().as_ptr() as usize % 16, 0);
    }
    assert!(Parts::new(&mut memory[..needed - 1], &TOLD).is_none());
    // 72, 2,056 and 41,992 bytes with their fronts, each rounded up to the lowest size of a class.
    let blocks = [(100, 80), (10, 2112), (2, 43_008)];
    let tables =
        |(records, block)| unsafe { tlsf_size_records(records) } + 8 + records as usize * block;
    assert_eq!(needed, 7 + blocks.map(tables).iter().sum::<usize>());
}

#[test]
fn parts_that_cannot_be_made_are_told() {
    let nine: Vec<_> = (1..=9).map(|k| part(k, 1)).collect();
    let wrong: [&[Part]; 8] = [
        &[],
        &nine,
        &[part(64, 0)],
        &[part(64, 65_536)],
        &[part(64, 1), part(64, 1)],
        &[part(64, 1), part(32, 1)],
        &[part(u32::MAX, 1)],
        &[part(1 << 20, 1024)],
    ];
    for told in wrong {
        assert_eq!(Parts::bytes(told), 0);
        assert!(Parts::new(&mut [0; 65_536], told).is_none());
    }
    assert!(Parts::bytes(&nine[..8]) > 0);
    let mut memory = vec![0; Parts::bytes(&nine[..8])];
    let parts = Parts::new(&mut memory, &nine[..8]).unwrap();
    let first = parts.boxed(1_u64);
    assert!(first.is_ok() && parts.boxed(2_u64).is_err());
}
