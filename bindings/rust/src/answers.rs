//! What the mutator names and what it is told: numbers with types of their own, and why a call is refused.
use crate::ffi::{self, Told};
use core::error::Error;
use core::fmt;

/// A slot, numbered from 0. Slots are the only way to name an object.
#[derive(Clone, Copy, Debug, PartialEq, Eq, PartialOrd, Ord, Hash)]
pub struct Slot(pub u16);

/// A place of an object, numbered from 0: it holds an object or none.
#[derive(Clone, Copy, Debug, PartialEq, Eq, PartialOrd, Ord, Hash)]
pub struct Place(pub u16);

/// A word of an object, numbered from 0.
#[derive(Clone, Copy, Debug, PartialEq, Eq, PartialOrd, Ord, Hash)]
pub struct WordIndex(pub u16);

/// How many places and words an object has. It weighs two words, and one for each of them.
#[derive(Clone, Copy, Debug, PartialEq, Eq, Hash)]
pub struct Sizes {
    /// How many places, each for an object or none.
    pub places: u16,
    /// How many words of 64 bits.
    pub words: u16,
}

impl Sizes {
    // The number of an answer is 65,536 times the places, and the words; each is below 65,536.
    pub(crate) fn of(val: u64) -> Sizes {
        Sizes {
            places: (val >> u16::BITS) as u16,
            words: val as u16,
        }
    }
}

/// Why a call is refused. A refused call changes nothing that a mutator can tell.
#[derive(Clone, Copy, Debug, PartialEq, Eq, Hash)]
pub enum Refusal {
    /// What is reached and the new object do not fit.
    Full,
    /// There is no such slot.
    NoSlot,
    /// There is nothing in the slot.
    Nothing,
    /// The object has no such place or word.
    NoPlace,
}

impl fmt::Display for Refusal {
    fn fmt(&self, f: &mut fmt::Formatter<'_>) -> fmt::Result {
        f.write_str(match self {
            Refusal::Full => "full: what is reached and the new object do not fit",
            Refusal::NoSlot => "no such slot",
            Refusal::Nothing => "nothing in the slot",
            Refusal::NoPlace => "no such place or word",
        })
    }
}

impl Error for Refusal {}

/// There are fewer words than 64 and one for each slot.
#[derive(Clone, Copy, Debug, PartialEq, Eq, Hash)]
pub struct TooFewWords;

impl fmt::Display for TooFewWords {
    fn fmt(&self, f: &mut fmt::Formatter<'_>) -> fmt::Result {
        f.write_str("fewer words than 64 and one for each slot")
    }
}

impl Error for TooFewWords {}

/// The words hold no sound heap with so many slots.
#[derive(Clone, Copy, Debug, PartialEq, Eq, Hash)]
pub struct NotSound;

impl fmt::Display for NotSound {
    fn fmt(&self, f: &mut fmt::Formatter<'_>) -> fmt::Result {
        f.write_str("no sound heap with so many slots")
    }
}

impl Error for NotSound {}

impl Told {
    // The number, or why it was refused. The library says no other code than these five.
    pub(crate) fn number(self) -> Result<u64, Refusal> {
        match self.code {
            ffi::DONE => Ok(self.val),
            ffi::FULL => Err(Refusal::Full),
            ffi::NO_SLOT => Err(Refusal::NoSlot),
            ffi::NOTHING => Err(Refusal::Nothing),
            ffi::NO_PLACE => Err(Refusal::NoPlace),
            code => unreachable!("the memory manager answered with code {code}"),
        }
    }

    // That it is done, or why it was refused.
    pub(crate) fn done(self) -> Result<(), Refusal> {
        self.number().map(|_| ())
    }
}
