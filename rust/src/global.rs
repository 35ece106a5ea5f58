//! Allocators for all of a program, under a lock.

use crate::calls;
use crate::heap::{figures_of, from_multiple_of_8, Figures};
use core::alloc::{GlobalAlloc, Layout};
use core::cell::UnsafeCell;
use core::ffi::c_void;
use core::hint::spin_loop;
use core::mem::MaybeUninit;
use core::ptr;
use core::sync::atomic::{AtomicBool, Ordering};

/// A heap behind a lock, or a null pointer where there is none yet.
struct Locked {
    locked: AtomicBool,
    tlsf: UnsafeCell<*mut c_void>,
}

// What is in the cell is touched under the lock alone.
unsafe impl Sync for Locked {}

impl Locked {
    const fn new() -> Self {
        Locked {
            locked: AtomicBool::new(false),
            tlsf: UnsafeCell::new(ptr::null_mut()),
        }
    }

    /// What the call answers for the heap. Where there is none, it is first what `make` answers.
    fn with<R>(
        &self,
        make: impl FnOnce() -> *mut c_void,
        call: impl FnOnce(*mut c_void) -> R,
    ) -> R {
        while self.locked.swap(true, Ordering::Acquire) {
            spin_loop();
        }
        // The lock is held: no other thread is in here.
        let tlsf = unsafe {
            let tlsf = self.tlsf.get();
            if (*tlsf).is_null() {
                *tlsf = make();
            }
            *tlsf
        };
        let answer = call(tlsf);
        self.locked.store(false, Ordering::Release);
        answer
    }
}

/// What both allocators do with their heap.
trait Allocates {
    /// What the call answers for the heap, which is null where there is none.
    fn with<R>(&self, call: impl FnOnce(*mut c_void) -> R) -> R;

    fn allocate(&self, layout: Layout) -> *mut u8 {
        let bytes = layout.size().max(1);
        self.with(|tlsf| unsafe { calls::tlsf_memalign(tlsf, layout.align(), bytes) })
            .cast()
    }

    fn release(&self, block: *mut u8) {
        self.with(|tlsf| unsafe { calls::tlsf_free(tlsf, block.cast()) });
    }

    /// # Safety
    ///
    /// As of `GlobalAlloc::realloc`.
    unsafe fn resize(&self, block: *mut u8, layout: Layout, bytes: usize) -> *mut u8 {
        if layout.align() <= 16 {
            let bytes = bytes.max(1);
            return self
                .with(|tlsf| unsafe { calls::tlsf_realloc(tlsf, block.cast(), bytes) })
                .cast();
        }
        // A block that moves by tlsf_realloc is at a multiple of 16 alone.
        unsafe {
            let other = self.allocate(Layout::from_size_align_unchecked(bytes, layout.align()));
            if !other.is_null() {
                ptr::copy_nonoverlapping(block, other, layout.size().min(bytes));
                self.release(block);
            }
            other
        }
    }
}

/// An allocator for all of a program, over `BYTES` bytes of its own:
///
/// ```
/// #[global_allocator]
/// static HEAP: tlsf::Global<{ 1 << 22 }> = tlsf::Global::new();
///
/// let words: Vec<String> = (0..100).map(|k| k.to_string()).collect();
/// assert!(words[99] == "99" && HEAP.figures().blocks_live > 100);
/// ```
///
/// Its calls spin at a lock, one at a time. So it is for no interrupt and no signal handler. A target
/// without atomic exchanges, as Cortex-M0, hasn't got it.
pub struct Global<const BYTES: usize> {
    memory: Memory<BYTES>,
    heap: Locked,
}

#[repr(C, align(16))]
struct Memory<const BYTES: usize>(UnsafeCell<[MaybeUninit<u8>; BYTES]>);

// The bytes are touched by the heap's calls alone, under the lock, and in blocks that are lent.
unsafe impl<const BYTES: usize> Sync for Memory<BYTES> {}

impl<const BYTES: usize> Global<BYTES> {
    /// The heap is made at the first call. Where the bytes are too few for one, each is refused.
    pub const fn new() -> Self {
        Global {
            memory: Memory(UnsafeCell::new([MaybeUninit::uninit(); BYTES])),
            heap: Locked::new(),
        }
    }

    /// The heap's figures, in constant time; zeros where there is no heap.
    pub fn figures(&self) -> Figures {
        self.with(figures_of)
    }

    /// Whether the heap is whole, as [`Heap::is_whole`](crate::Heap::is_whole).
    pub fn is_whole(&self) -> bool {
        self.with(|tlsf| unsafe { calls::tlsf_check(tlsf) }) == 0
    }
}

impl<const BYTES: usize> Allocates for Global<BYTES> {
    fn with<R>(&self, call: impl FnOnce(*mut c_void) -> R) -> R {
        let memory = self.memory.0.get().cast();
        let make = || unsafe { calls::tlsf_create_with_pool(memory, BYTES) };
        self.heap.with(make, call)
    }
}

impl<const BYTES: usize> Default for Global<BYTES> {
    fn default() -> Self {
        Self::new()
    }
}

unsafe impl<const BYTES: usize> GlobalAlloc for Global<BYTES> {
    unsafe fn alloc(&self, layout: Layout) -> *mut u8 {
        self.allocate(layout)
    }

    unsafe fn dealloc(&self, block: *mut u8, _: Layout) {
        self.release(block);
    }

    unsafe fn realloc(&self, block: *mut u8, layout: Layout, bytes: usize) -> *mut u8 {
        unsafe { self.resize(block, layout, bytes) }
    }
}

/// As [`Global`], but over memory that the program hands in, as where a board has its RAM:
///
/// ```
/// # // A program with std takes memory before its main.
/// static HEAP: tlsf::GlobalIn = tlsf::GlobalIn::new();
///
/// let memory = Box::leak(Box::new([0; 8192]));
/// assert!(HEAP.hand_in(memory));
/// assert_eq!(HEAP.figures().blocks_live, 0);
/// ```
///
/// Until then each call is refused. So it is for programs that take no memory before, as those without
/// std.
pub struct GlobalIn {
    heap: Locked,
}

impl GlobalIn {
    /// An allocator without memory.
    pub const fn new() -> Self {
        GlobalIn {
            heap: Locked::new(),
        }
    }

    /// Makes the heap over this memory, with a record for each 112 bytes, for 32 bits each 80. Answers
    /// false where the slice is too short, or where there is a heap already. The slice isn't used then.
    pub fn hand_in(&self, memory: &'static mut [u8]) -> bool {
        let (at, bytes) = from_multiple_of_8(memory);
        let mut made = false;
        let make = || {
            // The bytes are the heap's alone from here on.
            let tlsf = unsafe { calls::tlsf_create_with_pool(at, bytes) };
            made = !tlsf.is_null();
            tlsf
        };
        self.heap.with(make, |_| ());
        made
    }

    /// The heap's figures, in constant time; zeros where there is no heap.
    pub fn figures(&self) -> Figures {
        self.with(figures_of)
    }

    /// Whether there is a heap, and it is whole, as [`Heap::is_whole`](crate::Heap::is_whole).
    pub fn is_whole(&self) -> bool {
        self.with(|tlsf| unsafe { calls::tlsf_check(tlsf) }) == 0
    }
}

impl Allocates for GlobalIn {
    fn with<R>(&self, call: impl FnOnce(*mut c_void) -> R) -> R {
        self.heap.with(ptr::null_mut, call)
    }
}

impl Default for GlobalIn {
    fn default() -> Self {
        Self::new()
    }
}

unsafe impl GlobalAlloc for GlobalIn {
    unsafe fn alloc(&self, layout: Layout) -> *mut u8 {
        self.allocate(layout)
    }

    unsafe fn dealloc(&self, block: *mut u8, _: Layout) {
        self.release(block);
    }

    unsafe fn realloc(&self, block: *mut u8, layout: Layout, bytes: usize) -> *mut u8 {
        unsafe { self.resize(block, layout, bytes) }
    }
}
