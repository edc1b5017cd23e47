//! The words held against the step that the library tells, all along the lesson.

use futonkestrel::{events, Model};

use super::*;

const MODEL: &[u8] = include_bytes!("../../../../../examples/lesson/model.bin");
const SCRIPT: &[u8] = include_bytes!("../../../../../examples/lesson/script.bin");
const NOTHING: &str = "what fails there was not found";

/// Each START that can be asked for after each event, with the step told.
fn for_each_asked(check: impl Fn(&Asked, StartStep)) {
    let model = Model::read(MODEL).expect("accepted");
    let (items, names) = (Items::of(MODEL, &Names::default()), Names::default());
    let mut state = model.start();
    for event in events(SCRIPT) {
        let look = Look::new(model.variables(&state));
        for (thread, length) in (0..6).flat_map(|thread| (0..8).map(move |n| (thread, n))) {
            let asked = Asked {
                items: &items,
                names: &names,
                look: &look,
                thread,
                length,
            };
            check(&asked, model.start_test(&state, thread, length));
        }
        model.step(&mut state, event).expect("it is taken");
    }
}

/// The first step with a cause is the one told, and with none of them START is taken.
#[test]
fn the_first_step_with_a_cause() {
    for_each_asked(|asked, told| {
        let mut steps = StartStep::ALL.into_iter();
        let first = steps.find(|step| !asked.causes(*step).is_empty());
        assert_eq!(first.unwrap_or(StartStep::None), told);
        let words = asked.words(told);
        let start = format!("{} {}", told.number(), told.word());
        assert!(
            words.starts_with(&start) && !words.contains(NOTHING),
            "{words}"
        );
    });
}

/// Were another step told, the words would name no cause that is none.
#[test]
fn no_cause_is_invented() {
    for_each_asked(|asked, told| {
        for step in StartStep::ALL.into_iter().skip(1) {
            let holds = told.is_taken() || step < told;
            let words = asked.words(step);
            let wanted = format!("{} {}: {NOTHING}", step.number(), step.word());
            assert!(!holds || words == wanted, "{words}");
        }
    });
}
