//! Damaged and never started words: resumed exactly where C found them sound, and calls on these leave what C has left.
use crate::scripts::{self, Script};
use pagzimul::{Heap, NotSound};
use std::path::Path;

const CALLS_AFTER: usize = 25;

// The manager's own words, besides one for each slot.
const OWN: usize = 64;

// The words, whether they are sound, and after which call of the script they were damaged.
struct Row {
    script: Script,
    from: usize,
    sound: bool,
    slots: u16,
    words: Vec<u64>,
}

fn parse(head: &str, words: &str) -> Option<Row> {
    let mut parts = head.split(' ');
    let script = Script::of(Path::new(parts.next()?));
    Some(Row {
        script,
        from: parts.next()?.parse().ok()?,
        sound: parts.next()? == "1",
        slots: parts.next()?.parse().ok()?,
        words: words
            .split(' ')
            .map(str::parse)
            .collect::<Result<_, _>>()
            .ok()?,
    })
}

impl Row {
    // What the row is after some more calls; none if it is not sound.
    fn go_on(&mut self) -> Option<u64> {
        let before = self.words.clone();
        let sound = Heap::resume(&mut self.words, self.slots).is_ok();
        if sound != self.sound || self.words != before {
            self.script.fail(
                self.from,
                "damaged before it: C says otherwise, or the check wrote",
            );
        }
        let mut heap = Heap::resume(&mut self.words, self.slots).ok()?;
        for call in self.script.calls.iter().skip(self.from).take(CALLS_AFTER) {
            call.play(&mut heap);
        }
        Some(scripts::sum(heap.as_words()))
    }
}

#[test]
fn damaged_words_are_as_in_c() {
    let rows = scripts::made().map(|folder| folder.join("damaged.rows"));
    let Some(rows) = rows.filter(|path| path.is_file()) else {
        println!("damaged words: skipped, C has left none");
        return;
    };
    let text = scripts::read(&rows);
    let mut lines = text.lines();
    let (mut count, mut sound) = (0, 0);
    while let (Some(head), Some(words)) = (lines.next(), lines.next()) {
        let mut row = parse(head, words).expect("a damaged row");
        if let Some(sum) = row.go_on() {
            let expected = lines.next().and_then(|line| line.parse().ok());
            assert_eq!(
                Some(sum),
                expected,
                "{head}: the row differs from that in C"
            );
            sound += 1;
        }
        count += 1;
    }
    println!("damaged words: {count} rows, {sound} of them sound");
}

fn require_unsound(words: &mut [u64], slots: u16) {
    let before = words.to_vec();
    assert_eq!(Heap::resume(words, slots).err(), Some(NotSound));
    assert_eq!(words, before, "the check of soundness left other words");
}

#[test]
fn never_started_words_are_unsound() {
    const MOST_WORDS: usize = 200;
    for count in 0..MOST_WORDS {
        for slots in [0, 1, 6, u16::MAX] {
            require_unsound(&mut vec![0; count], slots);
            require_unsound(&mut vec![u64::MAX; count], slots);
            require_unsound(&mut scripts::filled(count), slots);
        }
    }
}

#[test]
fn other_slots_or_fewer_words_are_unsound() {
    const COUNT: usize = 100;
    const SLOTS: u16 = 5;
    let mut words = vec![0; COUNT];
    Heap::start(&mut words, SLOTS).expect("there are enough words");
    for slots in [0, SLOTS - 1, SLOTS + 1, u16::MAX] {
        require_unsound(&mut words, slots);
    }
    let base = OWN + usize::from(SLOTS);
    for count in 0..base {
        require_unsound(&mut words[..count], SLOTS);
    }
    for count in base..=COUNT {
        assert!(Heap::resume(&mut words[..count], SLOTS).is_ok());
    }
}
