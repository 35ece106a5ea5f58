//! Heaps by size: c/tlsf_parts.h, "parts", for Rust.

use crate::calls;
use crate::heap::{figures_of, from_multiple_of_8, Boxed, Heap};
use core::alloc::Layout;
use core::cell::Cell;
use core::mem::size_of;
use core::ptr::NonNull;

/// The most parts that [`Parts`] has.
pub const PARTS_MOST: usize = 8;

/// What is told of a part: the most bytes of a request that it serves, and how many blocks it has.
#[derive(Clone, Copy, Debug, PartialEq, Eq)]
pub struct Part {
    /// The most bytes of a request.
    pub largest: u32,
    /// How many blocks, from 1 to 65,535.
    pub blocks: u32,
}

/// Figures of a part.
#[derive(Clone, Copy, Debug, PartialEq, Eq)]
pub struct PartFigures {
    /// What was told of it.
    pub told: Part,
    /// The live blocks.
    pub blocks_live: usize,
    /// The most blocks that were live at once.
    pub most_blocks_live: usize,
    /// How many requests it refused.
    pub refused: usize,
}

impl Part {
    /// The bytes from one block to the next: the request with the 8 bytes in front of its block, rounded
    /// up to the lowest size of a class.
    const fn block(self) -> u64 {
        let units = (self.largest as u64 + 23) / 16 * 16;
        let mut step = 16;
        while units >= step * 64 {
            step *= 2;
        }
        (units + step - 1) / step * step
    }

    /// The bytes of its heap's table.
    const fn table(self) -> u64 {
        let control = if size_of::<usize>() == 8 { 368 } else { 336 };
        control + 1704 + 16 * self.blocks as u64
    }

    /// The bytes of memory that it takes: its table, 8 bytes to the next multiple of 16, and its blocks.
    const fn bytes(self) -> u64 {
        self.table() + 8 + self.block() * self.blocks as u64
    }

    /// Whether a heap can be so.
    const fn is_good(self) -> bool {
        self.blocks > 0
            && self.blocks <= 65_535
            && self.block() <= 1_056_964_608
            && self.block() * self.blocks as u64 <= 1_073_741_808
    }
}

/// A part in use.
struct PartHeap<'m> {
    told: Part,
    block: usize,
    heap: Heap<'m>,
}

/// Up to eight heaps over a slice of bytes, each for the requests up to its size, which it rounds up to
/// that. So its free memory is never in pieces that are too small: a request is refused exactly where
/// its part holds as many blocks as were told, or no part has its size.
///
/// ```
/// use tlsf::{Part, Parts};
/// const TOLD: [Part; 2] = [Part { largest: 64, blocks: 30 }, Part { largest: 2048, blocks: 4 }];
///
/// let mut memory = [0; Parts::bytes(&TOLD)];
/// let parts = Parts::new(&mut memory, &TOLD).expect("as many bytes as are needed");
/// let pair = parts.boxed((1, 2)).expect("one of 30 blocks");
/// assert_eq!((*pair, parts.figures(0).unwrap().blocks_live), ((1, 2), 1));
/// ```
pub struct Parts<'m> {
    parts: [Option<PartHeap<'m>>; PARTS_MOST],
    above_all: Cell<usize>,
}

impl<'m> Parts<'m> {
    /// The bytes of memory that these parts take, wherever it begins. 0 where they can't be made: there
    /// are one to eight, in order of size. Each has from 1 to 65,535 blocks, which have at most
    /// 1,073,741,808 bytes together, each rounded up.
    pub const fn bytes(told: &[Part]) -> usize {
        let mut sum = 7;
        let mut good = !told.is_empty() && told.len() <= PARTS_MOST;
        let mut k = 0;
        while k < told.len() && good {
            good = told[k].is_good() && (k == 0 || told[k - 1].largest < told[k].largest);
            sum += if good { told[k].bytes() } else { 0 };
            k += 1;
        }
        if good && sum <= isize::MAX as u64 {
            sum as usize
        } else {
            0
        }
    }

    /// Makes these parts, or answers `None` where [`Parts::bytes`] is 0 or more than the slice has.
    pub fn new(memory: &'m mut [u8], told: &[Part]) -> Option<Self> {
        let needed = Self::bytes(told);
        if needed == 0 || needed > memory.len() {
            return None;
        }
        let mut parts = Parts {
            parts: [(); PARTS_MOST].map(|()| None),
            above_all: Cell::new(0),
        };
        let (mut at, _) = from_multiple_of_8(memory);
        for (part, told) in parts.parts.iter_mut().zip(told) {
            // The slice has the bytes of all of them, and each gets its own.
            unsafe {
                *part = Some(PartHeap::new(at.cast(), *told)?);
                at = at.cast::<u8>().add(told.bytes() as usize).cast();
            }
        }
        Some(parts)
    }

    /// A block for this layout: where it begins, where in it the layout's alignment is, and its heap.
    fn allocate(&self, layout: Layout) -> Option<(NonNull<u8>, NonNull<u8>, &Heap<'m>)> {
        let more = layout.align().saturating_sub(16);
        let room = layout.size().max(1).saturating_add(more);
        let serves = |part: &&PartHeap| part.told.largest as usize >= room;
        let part = match self.parts.iter().flatten().find(serves) {
            Some(part) => part,
            None => {
                self.above_all.set(self.above_all.get() + 1);
                return None;
            }
        };
        let block = unsafe { calls::tlsf_malloc(part.heap.as_ptr(), part.block - 8) };
        let block = NonNull::new(block.cast::<u8>())?;
        let address = block.as_ptr() as usize;
        let skip = address.wrapping_neg() % layout.align();
        // A block begins at a multiple of 16. So at most `align` - 16 bytes are passed over.
        let at = unsafe { NonNull::new_unchecked(block.as_ptr().add(skip)) };
        Some((block, at, &part.heap))
    }

    /// The value in a block, or the value again where its part is full or none is large enough. An
    /// alignment A above 16 adds A - 16 bytes to the value's.
    pub fn boxed<T>(&self, value: T) -> Result<Boxed<'_, T>, T> {
        match self.allocate(Layout::new::<T>()) {
            // The block is new, and has room for an aligned T.
            Some((block, at, heap)) => Ok(unsafe { Boxed::new(value, at, block, heap) }),
            None => Err(value),
        }
    }

    /// So many bytes, all zero, or `None` where their part is full or none is large enough.
    pub fn zeroed(&self, bytes: usize) -> Option<Boxed<'_, [u8]>> {
        let (block, _, heap) = self.allocate(Layout::array::<u8>(bytes).ok()?)?;
        // The block is new and has the bytes.
        Some(unsafe { Boxed::zeroed(bytes, block, heap) })
    }

    /// The figures of the part of this number, from 0 on, or `None` where there is no such part.
    pub fn figures(&self, number: usize) -> Option<PartFigures> {
        let part = self.parts.get(number)?.as_ref()?;
        let figures = figures_of(part.heap.as_ptr());
        Some(PartFigures {
            told: part.told,
            blocks_live: figures.blocks_live,
            most_blocks_live: figures.most_bytes_live / (part.block - 8),
            refused: figures.refusals[0] + figures.refusals[1],
        })
    }

    /// How many requests were refused since they were above the last part's size.
    pub fn above_all(&self) -> usize {
        self.above_all.get()
    }

    /// Whether each part is whole, as [`Heap::is_whole`].
    pub fn is_whole(&self) -> bool {
        self.parts.iter().flatten().all(|part| part.heap.is_whole())
    }
}

impl PartHeap<'_> {
    /// Makes a part in the memory from `at` on.
    ///
    /// # Safety
    ///
    /// `at` is a multiple of 8, and the `told.bytes()` bytes from there on are this part's alone.
    unsafe fn new(at: *mut u8, told: Part) -> Option<Self> {
        let table = told.table() as usize;
        let (block, blocks) = (told.block() as usize, told.blocks as usize);
        unsafe {
            let behind = at.add(table);
            // A block lies 8 bytes behind its front, at a multiple of 16.
            let pool = behind.add(if behind as usize % 16 == 0 { 8 } else { 0 });
            let heap = Heap::of(calls::tlsf_create_records(at.cast(), table, told.blocks))?;
            let pool = calls::tlsf_add_pool(heap.as_ptr(), pool.cast(), block * blocks);
            (!pool.is_null()).then_some(PartHeap { told, block, heap })
        }
    }
}
