//! A heap over a slice, and what it lends.

use crate::calls;
use core::alloc::Layout;
use core::ffi::c_void;
use core::marker::PhantomData;
use core::ops::{Deref, DerefMut};
use core::ptr::{self, NonNull};

/// Figures of a heap, as `tlsf_stats` tells them. The bytes of a block are at least those asked for.
#[repr(C)]
#[derive(Clone, Copy, Debug, Default, PartialEq, Eq)]
pub struct Figures {
    /// The bytes of the live blocks.
    pub bytes_live: usize,
    /// The most bytes that live blocks had at once.
    pub most_bytes_live: usize,
    /// The bytes of the pool beside live blocks and the 8 in front of each.
    pub bytes_free: usize,
    /// The live blocks.
    pub blocks_live: usize,
    /// A block is found for as many bytes; 0 where none is free.
    pub largest_request: usize,
    /// What the largest free block serves: from `largest_request` to this.
    pub largest_free: usize,
    /// The records of the table.
    pub records: u32,
    /// The records in use: one for each block, live or free.
    pub records_used: u32,
    /// Refusals: no fit, table full, bad pointer, bad alignment, spoiled front.
    pub refusals: [usize; 5],
}

/// A heap over a slice of bytes, which it has to its end. Several blocks are lent at a time, to one
/// thread.
pub struct Heap<'m> {
    tlsf: NonNull<c_void>,
    memory: PhantomData<&'m mut [u8]>,
}

// All that a heap touches is its slice. While a block is lent the heap doesn't move.
unsafe impl Send for Heap<'_> {}

impl<'m> Heap<'m> {
    /// A heap with a record for each 112 bytes, for 32 bits each 80, or `None` where the slice is too short.
    pub fn new(memory: &'m mut [u8]) -> Option<Self> {
        let (at, bytes) = from_multiple_of_8(memory);
        // The bytes are the heap's alone while 'm lasts.
        Self::over(unsafe { calls::tlsf_create_with_pool(at, bytes) })
    }

    /// A heap with this many records, from 1 to 65,535, or `None` where the slice is too short. Each
    /// block takes a record, live or free.
    pub fn with_records(memory: &'m mut [u8], records: u32) -> Option<Self> {
        let (at, bytes) = from_multiple_of_8(memory);
        Self::over(unsafe { calls::tlsf_create_records(at, bytes, records) })
    }

    fn over(tlsf: *mut c_void) -> Option<Self> {
        let heap = Self::of(tlsf)?;
        let has_pool = !unsafe { calls::tlsf_get_pool(tlsf) }.is_null();
        has_pool.then_some(heap)
    }

    /// The heap that a call of tlsf.h made, or `None` where it made none.
    pub(crate) fn of(tlsf: *mut c_void) -> Option<Self> {
        Some(Heap {
            tlsf: NonNull::new(tlsf)?,
            memory: PhantomData,
        })
    }

    /// The heap for the calls of tlsf.h.
    pub(crate) fn as_ptr(&self) -> *mut c_void {
        self.tlsf.as_ptr()
    }

    fn allocate(&self, layout: Layout) -> Option<NonNull<u8>> {
        let bytes = layout.size().max(1);
        let block = unsafe { calls::tlsf_memalign(self.tlsf.as_ptr(), layout.align(), bytes) };
        NonNull::new(block.cast())
    }

    /// The value in a block, or the value again where the heap has no room, no record, or no such
    /// alignment (above 2^21).
    pub fn boxed<T>(&self, value: T) -> Result<Boxed<'_, T>, T> {
        match self.allocate(Layout::new::<T>()) {
            // The block is new, as large as a T, and aligned as one.
            Some(block) => Ok(unsafe { Boxed::new(value, block, block, self) }),
            None => Err(value),
        }
    }

    /// So many bytes, all zero, or `None` where the heap refuses them.
    pub fn zeroed(&self, bytes: usize) -> Option<Boxed<'_, [u8]>> {
        let block = self.allocate(Layout::array::<u8>(bytes).ok()?)?;
        // The block is new and has the bytes.
        Some(unsafe { Boxed::zeroed(bytes, block, self) })
    }

    /// The heap's figures, in constant time.
    pub fn figures(&self) -> Figures {
        figures_of(self.tlsf.as_ptr())
    }

    /// Whether the table and what stands in front of each block are whole. It reads them all.
    pub fn is_whole(&self) -> bool {
        (unsafe { calls::tlsf_check(self.tlsf.as_ptr()) }) == 0
    }
}

impl Drop for Heap<'_> {
    fn drop(&mut self) {
        unsafe { calls::tlsf_destroy(self.tlsf.as_ptr()) };
    }
}

/// A value in a block of a heap. The block is free when this is dropped.
pub struct Boxed<'h, T: ?Sized> {
    at: NonNull<T>,
    block: NonNull<u8>,
    heap: &'h Heap<'h>,
    value: PhantomData<T>,
}

impl<'h, T> Boxed<'h, T> {
    /// The value at a place within a live block of the heap.
    ///
    /// # Safety
    ///
    /// The block is nobody else's. From the place on it has room for a T, which is aligned there.
    pub(crate) unsafe fn new(
        value: T,
        at: NonNull<u8>,
        block: NonNull<u8>,
        heap: &'h Heap<'h>,
    ) -> Self {
        let at = at.cast::<T>();
        unsafe { at.as_ptr().write(value) };
        Boxed {
            at,
            block,
            heap,
            value: PhantomData,
        }
    }
}

impl<'h> Boxed<'h, [u8]> {
    /// So many bytes from the start of a live block of the heap, all zero.
    ///
    /// # Safety
    ///
    /// The block is nobody else's, and has the bytes.
    pub(crate) unsafe fn zeroed(bytes: usize, block: NonNull<u8>, heap: &'h Heap<'h>) -> Self {
        unsafe { block.as_ptr().write_bytes(0, bytes) };
        let slice = ptr::slice_from_raw_parts_mut(block.as_ptr(), bytes);
        Boxed {
            // A slice of a block is at no null pointer.
            at: unsafe { NonNull::new_unchecked(slice) },
            block,
            heap,
            value: PhantomData,
        }
    }
}

impl<T: ?Sized> Deref for Boxed<'_, T> {
    type Target = T;

    fn deref(&self) -> &T {
        // The value was written as the block was made, and is this one's alone.
        unsafe { self.at.as_ref() }
    }
}

impl<T: ?Sized> DerefMut for Boxed<'_, T> {
    fn deref_mut(&mut self) -> &mut T {
        unsafe { self.at.as_mut() }
    }
}

impl<T: ?Sized> Drop for Boxed<'_, T> {
    fn drop(&mut self) {
        // The value isn't read again, and the heap gave the block.
        unsafe {
            ptr::drop_in_place(self.at.as_ptr());
            calls::tlsf_free(self.heap.as_ptr(), self.block.as_ptr().cast());
        }
    }
}

pub(crate) fn figures_of(tlsf: *mut c_void) -> Figures {
    let mut figures = Figures::default();
    unsafe { calls::tlsf_stats(tlsf, &mut figures) };
    figures
}

/// The part of a slice that begins at a multiple of 8.
pub(crate) fn from_multiple_of_8(memory: &mut [u8]) -> (*mut c_void, usize) {
    let skip = memory.as_ptr().align_offset(8).min(memory.len());
    let rest = &mut memory[skip..];
    (rest.as_mut_ptr().cast(), rest.len())
}
