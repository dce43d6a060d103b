//! A heap on lent words, and a method for each call.
use crate::answers::{NotSound, Place, Refusal, Sizes, Slot, TooFewWords, WordIndex};
use crate::ffi;
use core::fmt;

/// A heap on lent words.
///
/// Every call takes the heap by `&mut`, also one that only reads: the library asks that nobody else reads or writes the
/// words during a call.
pub struct Heap<'a> {
    // Why each call is safe, which the SAFETY comments below cite:
    // Lent: pointer and count are those of one `&mut [u64]` that the call's own `&mut` guards, so they point to so many
    // words that nobody else reads or writes during the call.
    // Heap: a `Heap` is made by `start` and `resume` alone, where the library answered true for these words and slots;
    // neither field changes, and while there is a `Heap` only its calls write the words.
    words: &'a mut [u64],
    slots: u16,
}

impl<'a> Heap<'a> {
    /// Are there enough words for so many slots: at least 64, and one for each slot?
    pub fn fits(words: &[u64], slots: u16) -> bool {
        // SAFETY: Lent: the shared slice keeps others from writing during the call, and the function reads nothing.
        unsafe { ffi::pagzimul_fits(words.as_ptr(), words.len(), slots.into()) }
    }

    /// An empty heap on these words, whatever stands in them: every slot is empty, there is no object. Where there are
    /// too few words, none is written.
    pub fn start(words: &'a mut [u64], slots: u16) -> Result<Heap<'a>, TooFewWords> {
        // SAFETY: Lent. The function may be called on any words.
        if unsafe { ffi::pagzimul_start(words.as_mut_ptr(), words.len(), slots.into()) } {
            Ok(Heap { words, slots })
        } else {
            Err(TooFewWords)
        }
    }

    /// The heap that already stands in these words. It is checked first, exactly and for any words, damaged or never
    /// started; it writes to headers meanwhile, and then every word is as it was. It takes time linear in the words in use.
    pub fn resume(words: &'a mut [u64], slots: u16) -> Result<Heap<'a>, NotSound> {
        // SAFETY: Lent. The function may be called on any words.
        if unsafe { ffi::pagzimul_is_sound(words.as_mut_ptr(), words.len(), slots.into()) } {
            Ok(Heap { words, slots })
        } else {
            Err(NotSound)
        }
    }

    /// Gives the words back. They hold the heap until they are written, and [`Heap::resume`] takes it up again.
    ///
    /// ```compile_fail,E0382
    /// let mut words = [0; 100];
    /// let mut heap = pagzimul::Heap::start(&mut words, 4).unwrap();
    /// let words = heap.into_words();
    /// heap.collect();
    /// ```
    pub fn into_words(self) -> &'a mut [u64] {
        self.words
    }

    /// The words as they stand, to be looked at or saved.
    pub fn as_words(&self) -> &[u64] {
        self.words
    }

    /// How many slots there are.
    pub fn slots(&self) -> u16 {
        self.slots
    }

    /// `New`: an object of these sizes in slot `s`, its places empty and its words 0. [`Refusal::Full`] exactly if what
    /// is reached, and what it weighs, do not fit; what stood in `s` counts, too. May collect.
    pub fn make(&mut self, s: Slot, sizes: Sizes) -> Result<(), Refusal> {
        let (words, count, slots) = self.lent();
        let (places, nwords) = (sizes.places.into(), sizes.words.into());
        // SAFETY: Lent and Heap, as said at the fields.
        unsafe { ffi::pagzimul_new(words, count, slots, s.0.into(), places, nwords) }.done()
    }

    /// `Get`: slot `t` becomes place `i` of the object in slot `s`.
    pub fn get(&mut self, t: Slot, s: Slot, i: Place) -> Result<(), Refusal> {
        let (words, count, slots) = self.lent();
        // SAFETY: Lent and Heap, as said at the fields.
        unsafe { ffi::pagzimul_get(words, count, slots, t.0.into(), s.0.into(), i.0.into()) }.done()
    }

    /// `Set`: place `i` of the object in slot `s` becomes what is in slot `t`, which may be empty.
    pub fn set(&mut self, s: Slot, i: Place, t: Slot) -> Result<(), Refusal> {
        let (words, count, slots) = self.lent();
        // SAFETY: Lent and Heap, as said at the fields.
        unsafe { ffi::pagzimul_set(words, count, slots, s.0.into(), i.0.into(), t.0.into()) }.done()
    }

    /// `Read`: word `i` of the object in slot `s`.
    pub fn read(&mut self, s: Slot, i: WordIndex) -> Result<u64, Refusal> {
        let (words, count, slots) = self.lent();
        // SAFETY: Lent and Heap, as said at the fields.
        unsafe { ffi::pagzimul_read(words, count, slots, s.0.into(), i.0.into()) }.number()
    }

    /// `Write`: word `i` of the object in slot `s` becomes `x`.
    pub fn write(&mut self, s: Slot, i: WordIndex, x: u64) -> Result<(), Refusal> {
        let (words, count, slots) = self.lent();
        // SAFETY: Lent and Heap, as said at the fields.
        unsafe { ffi::pagzimul_write(words, count, slots, s.0.into(), i.0.into(), x) }.done()
    }

    /// `Copy`: slot `t` becomes what is in slot `s`.
    pub fn copy(&mut self, t: Slot, s: Slot) -> Result<(), Refusal> {
        let (words, count, slots) = self.lent();
        // SAFETY: Lent and Heap, as said at the fields.
        unsafe { ffi::pagzimul_copy(words, count, slots, t.0.into(), s.0.into()) }.done()
    }

    /// `Clear`: slot `t` becomes empty.
    pub fn clear(&mut self, t: Slot) -> Result<(), Refusal> {
        let (words, count, slots) = self.lent();
        // SAFETY: Lent and Heap, as said at the fields.
        unsafe { ffi::pagzimul_clear(words, count, slots, t.0.into()) }.done()
    }

    /// `Same`: do both slots hold the same object, or both none?
    pub fn same(&mut self, s: Slot, t: Slot) -> Result<bool, Refusal> {
        let (words, count, slots) = self.lent();
        // SAFETY: Lent and Heap, as said at the fields.
        let told = unsafe { ffi::pagzimul_same(words, count, slots, s.0.into(), t.0.into()) };
        told.number().map(|bit| bit == 1)
    }

    /// `Sizes`: how many places and words the object in slot `s` has.
    pub fn sizes(&mut self, s: Slot) -> Result<Sizes, Refusal> {
        let (words, count, slots) = self.lent();
        // SAFETY: Lent and Heap, as said at the fields.
        let told = unsafe { ffi::pagzimul_sizes(words, count, slots, s.0.into()) };
        told.number().map(Sizes::of)
    }

    /// `Collect`: takes back what is not reached. Nothing that a mutator can tell.
    pub fn collect(&mut self) {
        let (words, count, slots) = self.lent();
        // SAFETY: Lent and Heap, as said at the fields.
        let told = unsafe { ffi::pagzimul_collect(words, count, slots) };
        debug_assert_eq!(told.done(), Ok(()));
    }

    // The three that every call is handed. The pointer is of the whole slice, and is used before the next borrow of it.
    fn lent(&mut self) -> (*mut u64, usize, u64) {
        (self.words.as_mut_ptr(), self.words.len(), self.slots.into())
    }
}

impl fmt::Debug for Heap<'_> {
    fn fmt(&self, f: &mut fmt::Formatter<'_>) -> fmt::Result {
        f.debug_struct("Heap")
            .field("words", &self.words.len())
            .field("slots", &self.slots)
            .finish()
    }
}
