//! A heap with bounded calls (Two-Level Segregated Fit) over memory of the program's own.
//!
//! The heap is proved; the calls of `tlsf.h` over it, which this crate takes, are in part, and this
//! crate isn't: docs/C.md says what is. [`Heap`] owns a heap over a slice of bytes, and [`Parts`] heaps by
//! size. [`Global`] and [`GlobalIn`] are allocators for all of a program.
//!
//! ```
//! let mut memory = [0; 4096];
//! let heap = tlsf::Heap::new(&mut memory).expect("enough bytes");
//! let mut pair = heap.boxed((1, 2)).expect("room for a pair");
//! pair.0 = 3;
//! assert_eq!(*pair, (3, 2));
//! drop(pair);
//! assert_eq!(heap.figures().blocks_live, 0);
//! ```
//!
//! What is wrong doesn't compile. The slice is the heap's:
//!
//! ```compile_fail,E0506
//! let mut memory = [0; 4096];
//! let heap = tlsf::Heap::new(&mut memory).unwrap();
//! memory[0] = 1;
//! drop(heap);
//! ```
//!
//! No heap outlives its slice:
//!
//! ```compile_fail,E0597
//! let heap = {
//!     let mut memory = [0; 4096];
//!     tlsf::Heap::new(&mut memory).unwrap()
//! };
//! drop(heap);
//! ```
//!
//! No block outlives its heap:
//!
//! ```compile_fail,E0597
//! let mut memory = [0; 4096];
//! let block = {
//!     let heap = tlsf::Heap::new(&mut memory).unwrap();
//!     heap.boxed(1).unwrap()
//! };
//! drop(block);
//! ```
//!
//! And two threads don't share one, nor does a block go to another:
//!
//! ```compile_fail,E0277
//! let mut memory = [0; 4096];
//! let heap = tlsf::Heap::new(&mut memory).unwrap();
//! std::thread::scope(|scope| {
//!     scope.spawn(|| heap.boxed(1).is_ok());
//! });
//! ```
//!
//! ```compile_fail,E0277
//! let mut memory = [0; 4096];
//! let heap = tlsf::Heap::new(&mut memory).unwrap();
//! let block = heap.boxed(1).unwrap();
//! std::thread::scope(|scope| {
//!     scope.spawn(move || *block);
//! });
//! ```
#![no_std]
#![deny(missing_docs, unsafe_op_in_unsafe_fn)]

mod calls;
#[cfg(target_has_atomic = "8")]
mod global;
mod heap;
mod parts;

#[cfg(target_has_atomic = "8")]
pub use global::{Global, GlobalIn};
pub use heap::{Boxed, Figures, Heap};
pub use parts::{Part, PartFigures, Parts, PARTS_MOST};
