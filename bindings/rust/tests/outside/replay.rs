//! Scripts replayed through the wrapper: each answer is the one that `play` gave, and each row is the one that C has left.
use crate::calls::CODES;
use crate::scripts::{self, Script};
use pagzimul::Heap;
use std::thread;

const THREADS: usize = 2;

#[derive(Default)]
struct Tally {
    answers: [u64; CODES],
    rows: u64,
}

// On too few words there is no heap, and none is written.
fn play_without_words(script: &Script, lent: &mut [u64]) {
    let before = lent.to_vec();
    let refused =
        Heap::start(lent, script.slots).is_err() && Heap::resume(lent, script.slots).is_err();
    if !refused || lent != before {
        script.fail(usize::MAX, "too few words were started or written");
    }
}

fn play(script: &Script, tally: &mut Tally) {
    let mut lent = scripts::filled(script.words);
    if !Heap::fits(&lent, script.slots) {
        return play_without_words(script, &mut lent);
    }
    let Ok(mut heap) = Heap::start(&mut lent, script.slots) else {
        script.fail(usize::MAX, "start refused enough words");
    };
    for (i, (call, expected)) in script.calls.iter().zip(&script.answers).enumerate() {
        let Some(got) = call.play(&mut heap) else {
            script.fail(i, "is no call here");
        };
        if got != *expected {
            script.fail(i, &format!("expected {expected}, got {got}"));
        }
        if let Some(sum) = script.sums.get(&(i + 1)) {
            tally.rows += 1;
            if scripts::sum(heap.as_words()) != *sum {
                script.fail(i, "the row differs from that in C");
            }
        }
        tally.answers[usize::from(got.code)] += 1;
    }
    if Heap::resume(heap.into_words(), script.slots).is_err() {
        script.fail(usize::MAX, "resume refused what calls made");
    }
}

// On threads, since different words may be used at the same time.
#[test]
fn scripts_answer_as_play() {
    let paths = scripts::paths();
    let mut answers = [0; CODES];
    let mut rows = 0;
    thread::scope(|scope| {
        let part = |of: usize| {
            let paths = paths.iter().skip(of).step_by(THREADS);
            scope.spawn(move || {
                let mut tally = Tally::default();
                paths.for_each(|path| play(&Script::of(path), &mut tally));
                tally
            })
        };
        let parts: Vec<_> = (0..THREADS).map(part).collect();
        for tally in parts.into_iter().map(|part| part.join()) {
            let tally = tally.unwrap_or_else(|fault| std::panic::resume_unwind(fault));
            answers
                .iter_mut()
                .zip(tally.answers)
                .for_each(|(all, here)| *all += here);
            rows += tally.rows;
        }
    });
    println!(
        "scripts: {}, answers by code {answers:?}, {rows} rows compared with C",
        paths.len()
    );
    assert!(
        answers.iter().all(|count| *count > 0),
        "some code was never answered"
    );
}
