//! A safe interface to a proved memory manager on lent words.
//!
//! A [`Heap`] is words that the caller lends, and a number of slots. A mutator sees a plain world in which nothing
//! moves and nothing vanishes: an object has places, each for an object or none, and words of 64 bits; it is named by
//! the slots that hold it, never by where it lies. What no slot comes to, from place to place, is taken back when room
//! is wanted.
//!
//! ```
//! use pagzimul::{Heap, Refusal, Sizes, Slot, WordIndex};
//!
//! let mut words = [0; 100];
//! let mut heap = Heap::start(&mut words, 4)?;
//! heap.make(Slot(0), Sizes { places: 2, words: 1 })?;
//! heap.write(Slot(0), WordIndex(0), 42)?;
//! heap.collect();
//! assert_eq!(heap.read(Slot(0), WordIndex(0)), Ok(42));
//! assert_eq!(heap.read(Slot(1), WordIndex(0)), Err(Refusal::Nothing));
//! # Ok::<(), Box<dyn std::error::Error>>(())
//! ```
//!
//! The words are the heap's as long as it is there, and nobody else writes them:
//!
//! ```compile_fail,E0506
//! let mut words = [0; 100];
//! let mut heap = pagzimul::Heap::start(&mut words, 4).unwrap();
//! words[0] = 1;
//! heap.collect();
//! ```
//!
//! What was made of them may be kept and taken up again:
//!
//! ```
//! use pagzimul::{Heap, Sizes, Slot};
//!
//! let mut words = [0; 100];
//! let mut heap = Heap::start(&mut words, 4)?;
//! heap.make(Slot(0), Sizes { places: 0, words: 3 })?;
//! let kept = heap.into_words();
//! let mut again = Heap::resume(kept, 4)?;
//! assert_eq!(again.sizes(Slot(0))?.words, 3);
//! # Ok::<(), Box<dyn std::error::Error>>(())
//! ```
#![no_std]
#![deny(unsafe_op_in_unsafe_fn, missing_docs)]

mod answers;
mod ffi;
mod heap;

pub use answers::{NotSound, Place, Refusal, Sizes, Slot, TooFewWords, WordIndex};
pub use heap::Heap;
