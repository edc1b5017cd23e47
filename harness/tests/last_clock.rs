//! The last clock, reached tick by tick.

use futonkestrel::{
    events, model_after, run_model, run_table, translate_to_vec, Model, Refusal, Run, Table,
    VARIABLES,
};
use harness::case::Late;
use harness::random::Random;
use harness::scripts::{self, Budget};
use harness::wanted;
use plain::model::{self, Duration};

/// The head alone: no thread, nothing that time waits for.
const HEAD: &[u8] = &[0x01, 1, 0];

fn tick(count: u16) -> Vec<u8> {
    [&[0x0B], &count.to_le_bytes()[..]].concat()
}

/// TICKs up to the last clock but one, then one TICK too many.
fn one_too_many() -> Vec<u8> {
    let (whole, rest) = (999_999_999 / 65_535, 999_999_999 % 65_535);
    let mut script = tick(u16::MAX).repeat(whole);
    script.extend(tick(rest as u16));
    script.extend(tick(2));
    script
}

/// What its run comes to: all is taken but the last TICK.
fn stopped_at_the_end(script: &[u8]) -> Run {
    Run {
        refusal: Some(Refusal {
            number: 11,
            start: script.len() - 3,
            end: script.len(),
        }),
        taken: script.len() / 3 - 1,
        clock: 999_999_999,
    }
}

#[test]
fn a_table_does_not_pass_the_last_clock() {
    let table = translate_to_vec(HEAD).expect("the head alone is a model");
    let mut script = one_too_many();
    assert_eq!(run_table(&table, &script), stopped_at_the_end(&script));
    script.truncate(script.len() - 3);
    script.extend(tick(1));
    let run = run_table(&table, &script);
    assert_eq!((run.refusal, run.clock), (None, 1_000_000_000));
}

#[test]
fn a_model_does_not_pass_the_last_clock() {
    let mut script = one_too_many();
    assert_eq!(run_model(HEAD, &script), stopped_at_the_end(&script));
    // The refused TICK leaves room for one, and no more.
    script.extend(tick(1));
    let mut variables = [0; VARIABLES];
    let answer = model_after(HEAD, &script, &tick(1), &mut variables);
    assert_eq!((answer, variables[0]), (11, 1_000_000_000));
}

/// Event by event: a TICK may pass up to the last clock, and not from there on.
#[test]
fn time_may_pass_up_to_the_last_clock() {
    let bytes = translate_to_vec(HEAD).expect("the head alone is a model");
    let (model, table) = (Model::read(HEAD), Table::read(&bytes));
    let (model, table) = (model.expect("accepted"), table.expect("accepted"));
    let (mut state, mut variables) = (model.start(), table.start());
    let script = one_too_many();
    for event in events(&script[..script.len() - 3]) {
        assert_eq!(model.step(&mut state, event), Ok(()));
        assert_eq!(table.step(&mut variables, event), Ok(()));
    }
    for (clock, ticks, answer) in [
        (999_999_999, 2, Err(11)),
        (999_999_999, 1, Ok(())),
        (1_000_000_000, 1, Err(11)),
    ] {
        let may_pass = clock < 1_000_000_000;
        assert_eq!((variables[0], model.variables(&state)[0]), (clock, clock));
        assert_eq!(model.enabled(&state).tick, may_pass);
        assert_eq!(table.enabled(&variables).tick, may_pass);
        assert_eq!(model.step(&mut state, &tick(ticks)), answer);
        assert_eq!(table.step(&mut variables, &tick(ticks)), answer);
    }
}

/// A thread that the second mode has alone.
fn thread(period: u8, deadline: u8, longest: u8) -> Vec<u8> {
    let figures = [period, deadline, 1, longest].map(|figure| [figure, 0, 0, 0]);
    [&[0x02], &figures.concat()[..], &[0b10, 0, 0]].concat()
}

/// Two threads that are idle until the mode changes; the first sends a count to
/// the second.
fn idle_model() -> Vec<u8> {
    let records: [&[u8]; 9] = [
        &[0x01, 2, 0],
        &thread(2, 2, 1),
        &thread(5, 4, 2),
        &[0x03, 1, 0x04, 0, 0x05, 0, 0, 0, 0, 0],
        &[0x06, 0, 0, 0, 0b10],
        &[0x07, 0, 1],
        &[0x07, 1, 0],
        &[0x08, 0, 0, 0],
        &[0x0A, 3, 0, 2, 2, 0, 0, 0, 0, 0, 1, 0, 0, 0],
    ];
    records.concat()
}

/// A script whose first events are ticks of an idle model, up to a clock.
fn after_ticks_up_to(clock: u32, script: &[u8]) -> Vec<u8> {
    let most = u32::from(u16::MAX);
    let mut whole = tick(u16::MAX).repeat((clock / most) as usize);
    whole.extend(tick((clock % most) as u16));
    whole.extend(script);
    whole
}

/// While a model is idle its ticks move the clock alone: so the plain model starts
/// where the library comes by a run of all of them.
#[test]
fn threads_stop_at_the_last_clock() {
    let bytes = idle_model();
    let read = model::read(&bytes).expect("accepted");
    let random = &mut Random::new(1, 0);
    let (mut past, mut held) = (0, 0);
    for _ in 0..40 {
        let clock = 999_999_999 - random.below(30) as u32;
        let mut start = model::start_state(&read);
        start.now = Duration(clock.into());
        let budget = Budget {
            events: 40,
            ticks: 40,
        };
        let script = scripts::script(random, &read, start, budget);
        let whole = after_ticks_up_to(clock, &script);
        let before = whole.len() - script.len();
        let (wanted, reach) = wanted::of_late_model(&bytes, &Late { clock, script });
        past += reach.places.past_the_last_clock;
        held += reach.places.held_at_the_last_clock;
        for step in wanted.steps {
            let (start, end) = (before + step.start, before + step.end);
            let mut variables = [0; VARIABLES];
            let answer = model_after(&bytes, &whole[..start], &whole[start..end], &mut variables);
            assert_eq!(answer, step.after.answer, "{step} of {whole:02x?}");
            assert!(variables == step.after.variables, "{step} of {whole:02x?}");
        }
    }
    assert!(past >= 3 && held >= 10, "{past} past, {held} held");
}
