//! Calls, read from a line of a script, and played on a heap through the safe wrapper; and their answers.
use pagzimul::{Heap, Place, Refusal, Sizes, Slot, WordIndex};
use std::fmt;

/// A call: its name, and its numbers in the order of the script text.
pub struct Call {
    pub name: String,
    numbers: Vec<u64>,
}

/// An answer: a code and a number.
#[derive(Clone, Copy, Debug, PartialEq, Eq)]
pub struct Answer {
    pub code: u8,
    pub val: u64,
}

pub const CODES: usize = 5;

// In the number that `Sizes` says, the places are counted in these.
const PLACES_UNIT: u64 = 65_536;

impl Answer {
    fn of<T>(result: Result<T, Refusal>, val: impl FnOnce(T) -> u64) -> Answer {
        let refused = |code| Answer { code, val: 0 };
        match result {
            Ok(value) => Answer {
                code: 1,
                val: val(value),
            },
            Err(Refusal::Full) => refused(0),
            Err(Refusal::NoSlot) => refused(2),
            Err(Refusal::Nothing) => refused(3),
            Err(Refusal::NoPlace) => refused(4),
        }
    }

    fn of_done(result: Result<(), Refusal>) -> Answer {
        Answer::of(result, |()| 0)
    }

    pub fn read(line: &str) -> Option<Answer> {
        let (code, val) = line.split_once(' ')?;
        Some(Answer {
            code: code.parse().ok()?,
            val: val.parse().ok()?,
        })
    }
}

impl fmt::Display for Answer {
    fn fmt(&self, f: &mut fmt::Formatter<'_>) -> fmt::Result {
        write!(f, "{} {}", self.code, self.val)
    }
}

impl fmt::Display for Call {
    fn fmt(&self, f: &mut fmt::Formatter<'_>) -> fmt::Result {
        write!(f, "{} {:?}", self.name, self.numbers)
    }
}

impl Call {
    /// A line of a script.
    pub fn read(line: &str) -> Option<Call> {
        let mut parts = line.split_whitespace();
        Some(Call {
            name: parts.next()?.to_owned(),
            numbers: parts.map(str::parse).collect::<Result<_, _>>().ok()?,
        })
    }

    /// Plays it on the heap; none where it is no call.
    pub fn play(&self, heap: &mut Heap<'_>) -> Option<Answer> {
        let small = |i: usize| self.numbers.get(i).copied()?.try_into().ok();
        let slot = |i| small(i).map(Slot);
        let place = |i| small(i).map(Place);
        let word = |i| small(i).map(WordIndex);
        let sizes = |i| {
            let (places, words) = (small(i)?, small(i + 1)?);
            Some(Sizes { places, words })
        };
        Some(match self.name.as_str() {
            "New" => Answer::of_done(heap.make(slot(0)?, sizes(1)?)),
            "Get" => Answer::of_done(heap.get(slot(0)?, slot(1)?, place(2)?)),
            "Set" => Answer::of_done(heap.set(slot(0)?, place(1)?, slot(2)?)),
            "Read" => Answer::of(heap.read(slot(0)?, word(1)?), |word| word),
            "Write" => Answer::of_done(heap.write(slot(0)?, word(1)?, *self.numbers.get(2)?)),
            "Copy" => Answer::of_done(heap.copy(slot(0)?, slot(1)?)),
            "Clear" => Answer::of_done(heap.clear(slot(0)?)),
            "Same" => Answer::of(heap.same(slot(0)?, slot(1)?), u64::from),
            "Sizes" => Answer::of(heap.sizes(slot(0)?), |sizes| {
                PLACES_UNIT * u64::from(sizes.places) + u64::from(sizes.words)
            }),
            "Collect" => {
                heap.collect();
                Answer { code: 1, val: 0 }
            }
            _ => return None,
        })
    }
}
