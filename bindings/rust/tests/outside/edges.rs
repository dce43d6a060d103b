//! What lies at the edges of the wrapper: fewest words, what start leaves, refusals as errors.
use pagzimul::{Heap, Refusal, Sizes, Slot, TooFewWords};
use std::error::Error;

// The first word for objects.
fn base(slots: u16) -> usize {
    64 + usize::from(slots)
}

#[test]
fn fits_from_the_first_word_that_suffices() {
    for slots in [0, 1, 6, 255, 256, u16::MAX] {
        let count = base(slots);
        let mut words = vec![u64::MAX; count];
        assert!(!Heap::fits(&words[1..], slots));
        assert_eq!(Heap::start(&mut words[1..], slots).err(), Some(TooFewWords));
        assert!(
            words.iter().all(|word| *word == u64::MAX),
            "it wrote to too few words"
        );
        assert!(Heap::fits(&words, slots));
        assert!(Heap::start(&mut words, slots).is_ok());
        assert!(Heap::resume(&mut words, slots).is_ok());
    }
    assert!(!Heap::fits(&[], 0));
    assert!(Heap::start(&mut [], 0).is_err());
    assert!(Heap::resume(&mut [], 0).is_err());
}

#[test]
fn start_leaves_the_words_for_objects() {
    const SLOTS: u16 = 3;
    const ROOM: usize = 50;
    let mut words = vec![u64::MAX; base(SLOTS) + ROOM];
    let heap = Heap::start(&mut words, SLOTS).expect("there are enough words");
    assert_eq!(heap.slots(), SLOTS);
    let room = &heap.into_words()[base(SLOTS)..];
    assert!(room.iter().all(|word| *word == u64::MAX));
}

#[test]
fn refusals_are_errors() {
    let mut words = vec![0; base(1)];
    let mut heap = Heap::start(&mut words, 1).expect("there are enough words");
    let empty = Sizes {
        places: 0,
        words: 0,
    };
    let refusal: Box<dyn Error> = Box::new(heap.make(Slot(0), empty).unwrap_err());
    assert!(refusal.to_string().starts_with("full"));
    assert_eq!(heap.make(Slot(1), empty), Err(Refusal::NoSlot));
    assert_eq!(heap.sizes(Slot(0)), Err(Refusal::Nothing));
    assert!(format!("{heap:?}").contains("slots: 1"));
}
