//! Every function of the library with outputs of every interesting length, and
//! with bytes that are empty, cut or of no known kind.

mod common;

use common::{
    table_of_m, ACTIVE, BYTE, CPU, DUE, END, FIGURE, LEAVING, LEFT_WITH_JOBS, LISTING, M, NOW,
    PLACE, SCRIPT, SIZE_OF_M, STATE, WORD,
};
use futonkestrel::{events, raw, MODEL_WORDS, STATE_WORDS, VARIABLES};

/// No function tells more numbers.
const MOST_TOLD: usize = 7;

/// A call with `told` slices of any interesting length gives the same result each
/// time, tells what fits of `wanted`, and leaves every other place alone.
fn tells(wanted: &[usize], result: u32, call: impl Fn(&mut [usize]) -> u32) {
    for length in 0..=MOST_TOLD + 1 {
        let mut places = [PLACE; MOST_TOLD + 3];
        assert_eq!(call(&mut places[..length]), result, "{length} places");
        let fitting = length.min(wanted.len());
        assert_eq!(places[..fitting], wanted[..fitting], "{length} places");
        let behind = &places[fitting..];
        assert!(behind.iter().all(|&place| place == PLACE), "{places:?}");
    }
}

/// A call on variables with some behind the first 288 leaves those alone. The
/// result is the call's, and the 288.
fn on_variables(call: impl Fn(&mut [i32]) -> u32) -> (u32, Vec<i32>) {
    let mut variables = vec![FIGURE; VARIABLES + 3];
    let result = call(&mut variables);
    assert_eq!(variables.split_off(VARIABLES), [FIGURE; 3]);
    (result, variables)
}

/// A call on too few variables is refused with 8 and writes nothing.
fn refuses_too_few(call: impl Fn(&mut [i32]) -> u32) {
    for length in [0, 1, 16, VARIABLES - 1] {
        let mut variables = vec![FIGURE; VARIABLES];
        assert_eq!(call(&mut variables[..length]), 8, "{length} variables");
        assert_eq!(variables, [FIGURE; VARIABLES]);
    }
}

fn untouched(variables: &[i32]) -> bool {
    variables.iter().all(|&variable| variable == FIGURE)
}

#[test]
fn read_model_tells_the_part() {
    tells(&[0, 0], 0, |told| raw::read_model(M, told));
    tells(&[0, 0], 2, |told| raw::read_model(&[], told));
    tells(&[0, 2], 1, |told| raw::read_model(&M[..2], told));
    tells(&[3, 22], 1, |told| raw::read_model(&M[..22], told));
    tells(&[3, 23], 2, |told| {
        raw::read_model(&[&M[..3], &[0x20], &M[4..]].concat(), told)
    });
    tells(&[0, 20], 2, |told| raw::read_model(&M[3..], told));
}

/// Names come before times, and both before all other fields; a head's initial mode
/// is held against the count as written.
#[test]
fn read_model_tells_faults_of_fields() {
    let head = |modes: u8, initial: u8| [0x01, modes, initial];
    for (modes, initial, number) in [(9, 0, 4), (9, 8, 4), (9, 9, 14), (0, 0, 14), (8, 8, 14)] {
        tells(&[0, 3], number, |told| {
            raw::read_model(&head(modes, initial), told)
        });
    }
    // Deadline 6 over Period 5, beside it a mode that is not there, then that alone.
    let thread = |deadline: u8, mask: u8| {
        let mut model = M.to_vec();
        (model[8], model[20]) = (deadline, mask);
        model
    };
    for (deadline, mask, number) in [(6, 1, 15), (6, 2, 15), (5, 2, 4), (5, 1, 0)] {
        let part = if number == 0 { [0, 0] } else { [3, 23] };
        tells(&part, number, |told| {
            raw::read_model(&thread(deadline, mask), told)
        });
    }
    let behaviour = |thread: u8, state: u8| [M, &[0x08, thread, state, 0]].concat();
    for (thread, state, number) in [(1, 0, 14), (1, 8, 14), (0, 8, 4)] {
        tells(&[23, 27], number, |told| {
            raw::read_model(&behaviour(thread, state), told)
        });
    }
}

#[test]
fn read_table_tells_the_part() {
    let table = table_of_m();
    tells(&[0, 0], 0, |told| raw::read_table(&table, told));
    tells(&[0, 0], 0, |told| raw::read_table(&[], told));
    tells(&[0, 6], 1, |told| raw::read_table(&table[..6], told));
    tells(&[7, 8], 2, |told| {
        raw::read_table(&[&table[..7], &[0x22, 0x22]].concat(), told)
    });
}

/// A variable that is not there comes before one that does not rise or is the clock.
#[test]
fn read_table_tells_faults_of_fields() {
    let start = |variable: u16| [&[0x20][..], &variable.to_le_bytes(), &[1, 0, 0, 0]].concat();
    for (variable, number) in [(0, 4), (288, 14), (65_535, 14)] {
        tells(&[0, 7], number, |told| {
            raw::read_table(&start(variable), told)
        });
    }
    for (variable, number) in [(287, 4), (288, 14)] {
        let table = [start(287), start(variable)].concat();
        tells(&[7, 14], number, |told| raw::read_table(&table, told));
    }
}

#[test]
fn a_table_has_at_most_a_million_bytes() {
    // One rule with so many empty clauses.
    let mut table = vec![0x21, 0x01, 0, 0, 0, 0, 0, 0, 0, 0, 0];
    table.resize(1_000_001, 0x22);
    tells(&[0, 1_000_001], 3, |told| raw::read_table(&table, told));
    tells(&[0, 0], 0, |told| {
        raw::read_table(&table[..1_000_000], told)
    });
}

#[test]
fn translate_tells_the_part_and_the_length() {
    let length = table_of_m().len();
    let into = |model: &[u8], room: usize, told: &mut [usize]| {
        raw::translate(model, &mut vec![BYTE; room], told)
    };
    tells(&[0, 0, length], 0, |told| into(M, length, told));
    tells(&[0, 0, length], 0, |told| into(M, length + 9, told));
    tells(&[23, 23, 0], 8, |told| into(M, length - 1, told));
    tells(&[23, 23, 0], 8, |told| into(M, 0, told));
    tells(&[0, 0, 0], 2, |told| into(&[], length, told));
    tells(&[3, 10, 0], 1, |told| into(&M[..10], length, told));
}

#[test]
fn translate_writes_the_table_alone() {
    let table = table_of_m();
    for more in [0, 1, 100] {
        let mut output = vec![BYTE; table.len() + more];
        assert_eq!(raw::translate(M, &mut output, &mut []), 0);
        assert_eq!(output[..table.len()], table);
        assert_eq!(output[table.len()..], vec![BYTE; more]);
    }
}

#[test]
fn a_refused_translation_writes_nothing() {
    let length = table_of_m().len();
    for (model, room) in [(M, length - 1), (M, 1), (&M[..22], length), (&[], length)] {
        let mut output = vec![BYTE; room];
        assert_ne!(raw::translate(model, &mut output, &mut []), 0);
        assert_eq!(output, vec![BYTE; room]);
    }
}

#[test]
fn table_size_tells_the_part_and_the_counts() {
    let size = SIZE_OF_M;
    let counts = [size.rules, size.clauses, size.atoms, size.updates];
    let whole = [&[0, 0, size.bytes], &counts[..]].concat();
    tells(&whole, 0, |told| raw::table_size(M, told));
    // A head alone has a table of two start records.
    let starts = [0, 0, 14, 0, 0, 0, 0];
    tells(&starts, 0, |told| raw::table_size(&M[..3], told));
}

/// Each refusal of a model by its number, a model for it, and where its last record
/// begins, which is the one refused.
fn refused_models() -> [(u32, Vec<u8>, usize); 9] {
    let m = |more: &[u8]| [M, more].concat();
    let critical = |period: u32| {
        let ones = [1, 0, 0, 0].repeat(3);
        [&[0x02][..], &period.to_le_bytes(), &ones, &[1, 1, 0]].concat()
    };
    let connected = [&[0x03, 0, 0x04, 0][..], &[0x06, 1, 0, 0, 1].repeat(2)].concat();
    // A second thread, whose guard looks at a local of the first one.
    let guarded = [
        0x05, 0, 0, 0, 0, 0, 0x08, 1, 0, 0, 0x09, 0, 2, 0, 0, 0, 0, 0, 0,
    ];
    let long = [critical(999_999), critical(1_000_000)].concat();
    [
        (1, M[..22].to_vec(), 3),
        (2, m(&[0x01, 1, 0]), 23),
        (3, m(&[0x07, 0, 0].repeat(17)), 71),
        (14, m(&[0x03, 1]), 23),
        (15, [&M[..3], &critical(0)].concat(), 3),
        (4, m(&[0x08, 0, 8, 0]), 23),
        (5, m(&[&M[3..], &guarded].concat()), 53),
        (6, m(&connected), 32),
        (7, [&M[..3], &long, &[0x07, 0, 0]].concat(), 43),
    ]
}

/// No count is told of a refused model, and its part is that of translation, for
/// which the room counts last.
#[test]
fn table_size_of_refused_models() {
    for (number, model, start) in refused_models() {
        let part = [start, model.len(), 0, 0, 0, 0, 0];
        tells(&part, number, |told| raw::table_size(&model, told));
        tells(&part[..3], number, |told| {
            raw::translate(&model, &mut [], told)
        });
    }
    tells(&[0; MOST_TOLD], 2, |told| raw::table_size(&[], told));
}

/// A listing with outputs of several lengths: the result is the whole length,
/// and what fits is written.
fn lists(wanted: &str, list: impl Fn(&mut [u8]) -> usize) {
    let wanted = wanted.as_bytes();
    for room in [0, 1, wanted.len() - 1, wanted.len(), wanted.len() + 7] {
        let mut output = vec![BYTE; room];
        assert_eq!(list(&mut output), wanted.len(), "room {room}");
        let fitting = room.min(wanted.len());
        assert_eq!(output[..fitting], wanted[..fitting], "room {room}");
        assert_eq!(output[fitting..], vec![BYTE; room - fitting]);
    }
}

#[test]
fn model_listing_writes_what_fits() {
    lists(LISTING, |output| raw::model_listing(M, SCRIPT, output));
    lists("end 0 0 0\n", |output| raw::model_listing(M, &[], output));
    lists("end 0 2 0\n", |output| {
        raw::model_listing(&[], SCRIPT, output)
    });
    lists("end 0 1 0\n", |output| {
        raw::model_listing(&M[..9], SCRIPT, output)
    });
    lists("1 0 1 0\nend 1 9 0\n", |output| {
        raw::model_listing(M, &SCRIPT[..3], output)
    });
}

#[test]
fn table_listing_writes_what_fits() {
    let table = table_of_m();
    lists(LISTING, |output| raw::table_listing(&table, SCRIPT, output));
    lists("end 0 0 0\n", |output| {
        raw::table_listing(&table, &[], output)
    });
    lists("end 0 10 0\n", |output| {
        raw::table_listing(&[], SCRIPT, output)
    });
    lists("end 0 1 0\n", |output| {
        raw::table_listing(&table[..9], SCRIPT, output)
    });
    lists("1 0 1 0\nend 1 9 0\n", |output| {
        raw::table_listing(&table, &[1, 0, 0xFF, 3, 0], output)
    });
}

#[test]
fn run_model_tells_part_taken_and_clock() {
    tells(&[0, 0, 7, 4], 0, |told| raw::run_model(M, SCRIPT, told));
    tells(&[0, 0, 0, 0], 0, |told| raw::run_model(M, &[], told));
    tells(&[18, 19, 6, 4], 9, |told| {
        raw::run_model(M, &SCRIPT[..19], told)
    });
    tells(&[0, 2, 0, 0], 10, |told| raw::run_model(M, &[3, 0], told));
    tells(&[0, 0, 0, 0], 2, |told| raw::run_model(&[], SCRIPT, told));
    tells(&[3, 9, 0, 0], 1, |told| {
        raw::run_model(&M[..9], SCRIPT, told)
    });
}

#[test]
fn run_table_tells_part_taken_and_clock() {
    let table = table_of_m();
    tells(&[0, 0, 7, 4], 0, |told| {
        raw::run_table(&table, SCRIPT, told)
    });
    tells(&[0, 0, 0, 0], 0, |told| raw::run_table(&table, &[], told));
    tells(&[18, 19, 6, 4], 9, |told| {
        raw::run_table(&table, &SCRIPT[..19], told)
    });
    tells(&[0, 2, 0, 0], 10, |told| raw::run_table(&[], SCRIPT, told));
    tells(&[7, 9, 0, 0], 1, |told| {
        raw::run_table(&table[..9], SCRIPT, told)
    });
}

#[test]
fn event_length_of_any_bytes() {
    assert_eq!(raw::event_length(&[]), 0);
    for kind in 0x01..=0x0B {
        let length = match kind {
            0x04 => 6,
            0x0B => 3,
            _ => 2,
        };
        let mut script = vec![kind];
        script.resize(20, 0);
        assert_eq!(raw::event_length(&script), length, "kind {kind}");
        let cut = &script[..length - 1];
        assert_eq!(raw::event_length(cut), cut.len(), "kind {kind}, cut");
    }
    for kind in [0x00, 0x0C, 0x20, 0xFF] {
        assert_eq!(raw::event_length(&[kind, 1, 0, 3, 0]), 5, "kind {kind}");
    }
}

#[test]
fn table_start_sets_288_variables() {
    let table = table_of_m();
    let (result, variables) = on_variables(|variables| raw::table_start(&table, variables));
    assert_eq!(result, 0);
    // Mode, Phase, Pending, EnteredAt, Cpu; Active and State of the one thread.
    assert_eq!(variables[1..6], [0, 0, 255, 0, 255]);
    assert_eq!((variables[ACTIVE], variables[STATE]), (1, 0));
    let (result, variables) = on_variables(|variables| raw::table_start(&[], variables));
    assert_eq!((result, variables), (0, vec![0; VARIABLES]));
    refuses_too_few(|variables| raw::table_start(&table, variables));
}

#[test]
fn a_refused_table_starts_nothing() {
    let table = table_of_m();
    for (bytes, number) in [(&table[..9], 1), (&[0x19][..], 2), (&[0x22][..], 2)] {
        let (result, variables) = on_variables(|variables| raw::table_start(bytes, variables));
        assert_eq!(result, number);
        assert!(untouched(&variables));
    }
}

#[test]
fn table_step_takes_or_refuses_an_event() {
    let table = table_of_m();
    let step = |event: &[u8]| {
        on_variables(|variables| {
            raw::table_start(&table, variables);
            raw::table_step(&table, &[], variables, event)
        })
    };
    let (_, start) = on_variables(|variables| raw::table_start(&table, variables));
    let (result, variables) = step(&[0x01, 0]);
    assert_eq!((result, variables[STATE]), (0, 1));
    for (event, number) in [
        (&[][..], 9),
        (&[0x01], 9),
        (&[0x0C, 0], 9),
        (&[0x0B, 0, 0], 9),
        (&[0x04, 0, 1, 0, 0], 9),
        (&[0x03, 0], 10),
        (&[0x01, 1], 10),
        (&[0x0B, 1, 0], 10),
    ] {
        assert_eq!(step(event), (number, start.clone()), "{event:?}");
    }
    refuses_too_few(|variables| raw::table_step(&table, &[], variables, &[0x01, 0]));
}

#[test]
fn table_step_meets_the_last_clock_and_two_updates() {
    // Without rules, TICK alone.
    let tick_at = |clock: i32| {
        let mut variables = [0; VARIABLES];
        variables[NOW] = clock;
        (
            raw::table_step(&[], &[], &mut variables, &[0x0B, 2, 0]),
            variables[NOW],
        )
    };
    assert_eq!(tick_at(999_999_998), (0, 1_000_000_000));
    assert_eq!(tick_at(999_999_999), (11, 999_999_999));
    assert_eq!(tick_at(i32::MAX), (11, i32::MAX));
    let rule = [0x21, 0x01, 0, 0, 0, 0, 0, 0, 0, 0, 0];
    let update = [0x24, 255, 255, 0, 1, 0, 0, 0, 7, 0, 0, 0, 0, 0, 0, 0, 0];
    let answer = |table: &[u8]| {
        let (result, variables) = on_variables(|v| raw::table_step(table, &[], v, &[0x01, 0]));
        (result, untouched(&variables))
    };
    assert_eq!(answer(&[&rule[..], &update].concat()), (0, false));
    assert_eq!(answer(&[&rule[..], &update, &update].concat()), (13, true));
    assert_eq!(answer(&[rule, rule].concat()), (12, true));
}

/// The step does not read the table for faults, yet any bytes give an answer.
#[test]
fn table_step_on_bytes_that_are_no_table() {
    let table = table_of_m();
    for cut in 0..table.len() {
        let (result, variables) =
            on_variables(|v| raw::table_step(&table[..cut], &[], v, &[0x0B, 1, 0]));
        assert!(matches!(result, 0 | 9..=13), "{result}");
        assert!(result == 0 || untouched(&variables));
    }
}

#[test]
fn model_after_shows_the_state() {
    let after = |script: &[u8], event: &[u8]| {
        on_variables(|variables| raw::model_after(M, script, event, variables))
    };
    let (result, variables) = after(&SCRIPT[..18], &SCRIPT[18..]);
    assert_eq!((result, variables[NOW], variables[STATE]), (0, 4, 1));
    // Refused events leave the state, whether in the script or after it.
    let shown = after(SCRIPT, &[]);
    assert_eq!(shown, (9, variables));
    for event in [&[0x01, 0][..], &[0x0B, 2, 0], &[0x03, 9]] {
        assert_eq!(after(SCRIPT, event), (10, shown.1.clone()), "{event:?}");
        assert_eq!(after(&[SCRIPT, event].concat(), &[]), shown, "{event:?}");
    }
    assert_eq!(after(&[SCRIPT, &[0x0C]].concat(), &[]), shown);
    refuses_too_few(|variables| raw::model_after(M, &[], &[], variables));
}

#[test]
fn a_refused_model_shows_nothing() {
    for (model, number) in [(&M[..9], 1), (&[][..], 2), (&[0x01, 0, 0][..], 14)] {
        let (result, variables) =
            on_variables(|variables| raw::model_after(model, SCRIPT, &[], variables));
        assert_eq!(result, number);
        assert!(untouched(&variables));
    }
}

/// The index of a table, made into so much room.
fn index_into(table: &[u8], room: usize) -> Vec<usize> {
    let mut index = vec![0; room];
    raw::table_index(table, &mut index);
    index
}

fn whole_index(table: &[u8]) -> Vec<usize> {
    index_into(table, raw::table_index(table, &mut []))
}

#[test]
fn table_index_lists_what_fits() {
    let table = table_of_m();
    let whole = raw::table_index(&table, &mut []);
    for room in 0..whole + 4 {
        let mut index = vec![PLACE; whole + 7];
        assert_eq!(raw::table_index(&table, &mut index[..room]), whole);
        let behind = &index[room.min(whole)..];
        assert!(behind.iter().all(|&place| place == PLACE), "room {room}");
    }
    // A table without rules, and bytes that are no table, have an index too.
    assert!(raw::table_index(&[], &mut []) < whole);
    assert_eq!(
        raw::table_index(M, &mut []),
        raw::table_index(&[], &mut [PLACE; 9])
    );
}

/// However much of the table an index lists, steps by it are those of the table.
#[test]
fn table_step_by_an_index_of_any_room() {
    let table = table_of_m();
    let script = [SCRIPT, &[0x0B, 1, 0, 0x03, 0, 0x03, 0, 0x0B, 4, 0]].concat();
    let run = |index: &[usize]| {
        let mut variables = vec![0; VARIABLES];
        raw::table_start(&table, &mut variables);
        let step = |event| {
            (
                raw::table_step(&table, index, &mut variables, event),
                variables.clone(),
            )
        };
        events(&script).map(step).collect::<Vec<(u32, Vec<i32>)>>()
    };
    let walked = run(&[]);
    let answers: Vec<u32> = walked.iter().map(|(answer, _)| *answer).collect();
    assert_eq!(answers, [0, 0, 0, 0, 0, 0, 0, 0, 0, 10, 10]);
    for room in 0..=whole_index(&table).len() + 3 {
        assert!(run(&index_into(&table, room)) == walked, "room {room}");
    }
}

/// An index is not trusted: it lists what fits the table.
#[test]
fn table_step_by_an_index_of_any_content() {
    let table = table_of_m();
    let other = [&[0x21, 1, 0, 0, 0, 0, 0, 0, 0, 0, 0][..], &table].concat();
    let whole = whole_index(&table);
    let mut indexes = vec![whole_index(&other), vec![usize::MAX; 9], vec![0; 40]];
    for place in 0..whole.len() {
        for number in [
            0,
            1,
            7,
            65_536,
            usize::MAX,
            whole[place] + 1,
            whole[place] << 16,
        ] {
            let mut index = whole.clone();
            index[place] = number;
            indexes.push(index);
        }
        indexes.push(whole[..place].to_vec());
    }
    for index in indexes {
        for event in [&[0x01, 0][..], &[0x0B, 2, 0], &[0x04, 0, 2, 0, 0, 0], &[]] {
            let (answer, variables) = on_variables(|v| raw::table_step(&table, &index, v, event));
            assert!(matches!(answer, 0 | 9..=13), "{answer}");
            assert!(answer == 0 || untouched(&variables));
        }
        refuses_too_few(|variables| raw::table_step(&table, &index, variables, &[0x01, 0]));
    }
}

#[test]
fn words_of_models_and_states() {
    assert_eq!(raw::model_words(), MODEL_WORDS);
    assert_eq!(raw::state_words(), STATE_WORDS);
}

#[test]
fn model_read_tells_the_part() {
    let read = |model: &[u8], told: &mut [usize]| {
        let mut words = vec![WORD; MODEL_WORDS + 3];
        let number = raw::model_read(model, &mut words, told);
        let kept = if number == 0 { MODEL_WORDS } else { 0 };
        assert!(words[kept..].iter().all(|&word| word == WORD));
        number
    };
    tells(&[0, 0], 0, |told| read(M, told));
    tells(&[0, 0], 2, |told| read(&[], told));
    tells(&[3, 22], 1, |told| read(&M[..22], told));
    tells(&[0, 3], 4, |told| read(&[0x01, 9, 0], told));
}

#[test]
fn model_read_wants_room() {
    let read = |model: &[u8], length: usize, told: &mut [usize]| {
        let mut words = vec![WORD; MODEL_WORDS];
        let number = raw::model_read(model, &mut words[..length], told);
        assert!(words.iter().all(|&word| word == WORD));
        number
    };
    for length in [0, 1, MODEL_WORDS - 1] {
        tells(&[M.len(), M.len()], 8, |told| read(M, length, told));
        // The model's own refusal comes first.
        tells(&[3, 9], 1, |told| read(&M[..9], length, told));
        tells(&[0, 0], 2, |told| read(&[], length, told));
    }
}

fn words_of_m() -> Vec<u32> {
    let mut words = vec![0; MODEL_WORDS];
    assert_eq!(raw::model_read(M, &mut words, &mut []), 0);
    words
}

/// A call on a state with some numbers behind it leaves those alone.
fn on_state(state: &[u32], call: impl Fn(&mut [u32]) -> u32) -> (u32, Vec<u32>) {
    let mut lent = [state, &[WORD; 3]].concat();
    let answer = call(&mut lent);
    assert_eq!(lent.split_off(STATE_WORDS), [WORD; 3]);
    (answer, lent)
}

/// A call on too few numbers is refused with 8 and writes nothing.
fn refuses_short_state(call: impl Fn(&mut [u32]) -> u32) {
    for length in [0, 1, 6, STATE_WORDS - 1] {
        let mut state = vec![WORD; STATE_WORDS];
        assert_eq!(call(&mut state[..length]), 8, "{length} numbers");
        assert_eq!(state, [WORD; STATE_WORDS]);
    }
}

fn start_of(words: &[u32]) -> Vec<u32> {
    let (answer, state) = on_state(&[WORD; STATE_WORDS], |state| raw::model_start(words, state));
    assert_eq!(answer, 0);
    state
}

#[test]
fn model_start_sets_a_state() {
    let words = words_of_m();
    let state = start_of(&words);
    assert_ne!(state, [WORD; STATE_WORDS]);
    assert_eq!(state, start_of(&[&words[..], &[WORD]].concat()));
    refuses_short_state(|state| raw::model_start(&words, state));
    // Words that no model was read into stand for some model.
    for words in [
        &[][..],
        &words[..20],
        &[u32::MAX; MODEL_WORDS],
        &[WORD; 900],
    ] {
        start_of(words);
        refuses_short_state(|state| raw::model_start(words, state));
    }
}

#[test]
fn model_step_takes_or_refuses_an_event() {
    let words = words_of_m();
    let start = start_of(&words);
    let step = |event: &[u8]| on_state(&start, |state| raw::model_step(&words, state, event));
    let (answer, state) = step(&[0x01, 0]);
    assert!(answer == 0 && state != start);
    for (event, number) in [
        (&[][..], 9),
        (&[0x01], 9),
        (&[0x0C, 0], 9),
        (&[0x0B, 0, 0], 9),
        (&[0x04, 0, 1, 0, 0], 9),
        (&[0x03, 0], 10),
        (&[0x01, 1], 10),
        (&[0x0B, 1, 0], 10),
    ] {
        assert_eq!(step(event), (number, start.clone()), "{event:?}");
    }
    refuses_short_state(|state| raw::model_step(&words, state, &[0x01, 0]));
    refuses_short_state(|state| raw::model_step(&words, state, &[]));
}

/// The model of threads that leave, and the state when one has to be stopped.
fn left_with_jobs() -> (Vec<u32>, Vec<u32>) {
    let mut words = vec![0; MODEL_WORDS];
    assert_eq!(raw::model_read(LEAVING, &mut words, &mut []), 0);
    let state = state_after(&words, LEFT_WITH_JOBS);
    (words, state)
}

/// A critical thread is refused and nothing touched; the other one is stopped: code 0, the
/// processor free, no End, and all else as it was.
#[test]
fn model_step_stops_a_thread_that_leaves() {
    let (words, left) = left_with_jobs();
    let shown = |state: &[u32]| {
        let shown = on_variables(|variables| raw::model_variables(&words, state, variables));
        assert_eq!(shown.0, 0);
        shown.1
    };
    let step = |event: &[u8]| on_state(&left, |state| raw::model_step(&words, state, event));
    assert_eq!(step(&[0x02, 0]), (10, left.clone()));
    let mut wanted = shown(&left);
    assert_eq!([wanted[CPU], wanted[STATE], wanted[STATE + 1]], [1, 2, 3]);
    assert_eq!([wanted[DUE + 1], wanted[END + 1]], [4, 4]);
    wanted[CPU] = 255;
    for variable in [STATE, DUE, END] {
        wanted[variable + 1] = 0;
    }
    let (answer, stopped) = step(&[0x02, 1]);
    assert_eq!((answer, shown(&stopped)), (0, wanted));
    refuses_short_state(|state| raw::model_step(&words, state, &[0x02, 1]));
}

/// It is listed, and a tick waits for it.
#[test]
fn a_stop_is_enabled() {
    let (words, left) = left_with_jobs();
    offers(&[[2, 1, 0, 0], [8, 0, 0, 0]], false, |output, told| {
        raw::model_enabled(&words, &left, output, told)
    });
}

#[test]
fn model_step_on_numbers_of_any_content() {
    for words in [
        &words_of_m()[..],
        &[],
        &[u32::MAX; MODEL_WORDS],
        &[WORD; 900],
    ] {
        for state in [
            [u32::MAX; STATE_WORDS],
            [WORD; STATE_WORDS],
            [3; STATE_WORDS],
        ] {
            for event in [&[0x01, 0][..], &[0x05, 0], &[0x09, 7], &[0x0B, 255, 255]] {
                let (answer, after) = on_state(&state, |lent| raw::model_step(words, lent, event));
                assert!(matches!(answer, 0 | 10 | 11), "{answer}");
                assert!(answer == 0 || after == state);
            }
        }
    }
}

/// The state of a model after a script.
fn state_after(words: &[u32], script: &[u8]) -> Vec<u32> {
    let mut state = start_of(words);
    for event in events(script) {
        raw::model_step(words, &mut state, event);
    }
    state
}

#[test]
fn model_variables_shows_the_state() {
    let words = words_of_m();
    // Bytes of the script, then Due and End as they are shown after these.
    for (taken, due, end) in [(0, 0, 0), (4, 4, 0), (10, 4, 2), (15, 4, 0), (20, 0, 0)] {
        let state = state_after(&words, &SCRIPT[..taken]);
        let (answer, variables) =
            on_variables(|variables| raw::model_variables(&words, &state, variables));
        let (_, mut wanted) =
            on_variables(|variables| raw::model_after(M, &SCRIPT[..taken], &[], variables));
        (wanted[DUE], wanted[END]) = (due, end);
        assert_eq!((answer, variables), (0, wanted), "after {taken} bytes");
        refuses_too_few(|variables| raw::model_variables(&words, &state, variables));
    }
}

/// A list with outputs of several lengths: four numbers an event or nothing, and
/// the same told each time.
fn offers(wanted: &[[u32; 4]], tick: bool, list: impl Fn(&mut [u32], &mut [usize]) -> u32) {
    let numbers = wanted.concat();
    let told = [wanted.len(), usize::from(tick)];
    for room in 0..numbers.len() + 6 {
        let number = if room < numbers.len() { 8 } else { 0 };
        tells(&told, number, |told| {
            let mut output = vec![WORD; numbers.len() + 9];
            let number = list(&mut output[..room], told);
            let written = if number == 0 { numbers.len() } else { 0 };
            assert_eq!(output[..written], numbers[..written], "room {room}");
            assert!(output[written..].iter().all(|&word| word == WORD));
            number
        });
    }
}

#[test]
fn model_and_table_list_what_is_enabled() {
    let (words, table) = (words_of_m(), table_of_m());
    let index = whole_index(&table);
    let mut variables = vec![0; VARIABLES];
    raw::table_start(&table, &mut variables);
    let mut taken = 0;
    for (event, wanted, tick) in [
        (&[][..], &[[1, 0, 0, 0]][..], false),
        (&[0x01, 0], &[[3, 0, 0, 0]], false),
        (&[0x03, 0], &[[4, 0, 1, 5]], false),
        (&SCRIPT[4..10], &[], true),
        (&[0x0B, 2, 0], &[[5, 0, 0, 0]], false),
        (&[0x05, 0], &[], true),
    ] {
        taken += event.len();
        raw::table_step(&table, &index, &mut variables, event);
        let state = state_after(&words, &SCRIPT[..taken]);
        offers(wanted, tick, |output, told| {
            raw::model_enabled(&words, &state, output, told)
        });
        for index in [&index[..], &[], &index_into(&table, 6)] {
            offers(wanted, tick, |output, told| {
                raw::table_enabled(&table, index, &variables, output, told)
            });
        }
    }
}

#[test]
fn a_table_that_no_model_made_lists_every_enabled_rule() {
    let rule = |kind: u8, id: u8, low: u8, high: u8| [0x21, kind, id, low, 0, 0, 0, high, 0, 0, 0];
    // The last has an empty clause, which never holds.
    let rules = [
        rule(0x08, 0, 0, 0),
        rule(0x04, 9, 3, 7),
        rule(0x04, 9, 1, 2),
        rule(0x01, 255, 0, 0),
        rule(0x01, 2, 0, 0),
    ];
    let table = [&rules.concat()[..], &[0x22]].concat();
    let wanted = [[1, 255, 0, 0], [4, 9, 3, 7], [4, 9, 1, 2], [8, 0, 0, 0]];
    let variables = [0; VARIABLES];
    for index in [whole_index(&table), index_into(&table, 5), Vec::new()] {
        offers(&wanted, false, |output, told| {
            raw::table_enabled(&table, &index, &variables, output, told)
        });
    }
    let requests = rules[0].repeat(2);
    offers(&[[8, 0, 0, 0]; 2], true, |output, told| {
        raw::table_enabled(&requests, &[], &variables, output, told)
    });
    let mut late = variables;
    late[NOW] = 1_000_000_000;
    offers(&[[8, 0, 0, 0]; 2], false, |output, told| {
        raw::table_enabled(&requests, &[], &late, output, told)
    });
}

/// The table is not read for faults: kinds that no event has are left out, yet
/// their rules stop a TICK, and lengths are START's alone.
#[test]
fn table_enabled_on_bytes_that_are_no_table() {
    let rule = |kind: u8| [0x21, kind, 3, 5, 0, 0, 0, 6, 0, 0, 0];
    let variables = [0; VARIABLES];
    for (kinds, wanted, tick) in [
        (&[0x08][..], &[[8, 3, 0, 0]][..], true),
        (&[0x0B], &[], false),
        (&[0xFF, 0x08, 0x00], &[[8, 3, 0, 0]], false),
        (&[0x0A, 0x04, 0x0C], &[[4, 3, 5, 6], [10, 3, 0, 0]], false),
    ] {
        let table: Vec<u8> = kinds.iter().flat_map(|&kind| rule(kind)).collect();
        for index in [whole_index(&table), Vec::new()] {
            offers(wanted, tick, |output, told| {
                raw::table_enabled(&table, &index, &variables, output, told)
            });
        }
    }
    let table = table_of_m();
    for cut in 0..table.len() {
        let mut told = [PLACE; 2];
        let number = raw::table_enabled(&table[..cut], &[], &variables, &mut [], &mut told);
        assert_eq!(number, if told[0] == 0 { 0 } else { 8 });
        assert!(told[1] <= 1);
    }
}

/// With too little to look at nothing is listed, and nothing told but 0.
#[test]
fn nothing_is_enabled_in_a_short_state() {
    let (words, table) = (words_of_m(), table_of_m());
    for length in [0, 1, 200, STATE_WORDS - 1, VARIABLES - 1] {
        let state = vec![0; length.min(STATE_WORDS - 1)];
        let variables = vec![0; length];
        tells(&[0, 0], 8, |told| {
            let mut output = [WORD; 40];
            let number = raw::model_enabled(&words, &state, &mut output, told);
            assert_eq!(output, [WORD; 40]);
            number
        });
        tells(&[0, 0], 8, |told| {
            let mut output = [WORD; 40];
            let number = raw::table_enabled(&table, &[], &variables, &mut output, told);
            assert_eq!(output, [WORD; 40]);
            number
        });
    }
}

/// M dispatched: START for 1 to 5 is taken.
const DISPATCHED: &[u8] = &[0x01, 0, 0x03, 0];

/// Numbers that no thread of M has; the low bytes of some are 0.
const NOBODY: [u32; 7] = [1, 15, 16, 255, 256, 65_536, u32::MAX];

/// A script, thread and length with the step that is told, on bytes and on a state.
fn tells_step(script: &[u8], thread: u32, length: u32, step: usize) {
    let words = words_of_m();
    let state = state_after(&words, script);
    tells(&[0, 0, step], 0, |told| {
        raw::start_test(M, script, thread, length, told)
    });
    tells(&[step], 0, |told| {
        raw::model_start_test(&words, &state, thread, length, told)
    });
}

#[test]
fn start_test_tells_the_first_step_that_fails() {
    for (length, step) in [(0, 4), (1, 0), (5, 0), (6, 4), (257, 4), (u32::MAX, 4)] {
        tells_step(DISPATCHED, 0, length, step);
        tells_step(&DISPATCHED[..2], 0, length, 1);
        tells_step(&SCRIPT[..10], 0, length, 1);
        for thread in NOBODY {
            tells_step(DISPATCHED, thread, length, 1);
        }
    }
    // Refused events are passed over; a cut or unknown one ends the script.
    let start = &SCRIPT[4..10];
    for behind in [&[0x03, 0][..], &[0x0B, 0, 0], &start[..5], &[0x0C, 0x04, 0]] {
        tells_step(&[DISPATCHED, behind].concat(), 0, 2, 0);
    }
    tells_step(&[DISPATCHED, &[0x0C], start].concat(), 0, 2, 0);
    tells_step(&[DISPATCHED, &[0x03, 0], start].concat(), 0, 2, 1);
}

/// 0 in the third place would say that START is taken.
#[test]
fn start_test_tells_no_step_of_a_refused_model() {
    for (number, model, start) in refused_models() {
        tells(&[start, model.len()], number, |told| {
            raw::start_test(&model, DISPATCHED, 0, 2, told)
        });
    }
    tells(&[0, 0], 2, |told| raw::start_test(&[], &[], 0, 2, told));
}

#[test]
fn start_test_of_a_short_state() {
    let words = words_of_m();
    for length in [0, 1, 6, STATE_WORDS - 1] {
        tells(&[], 8, |told| {
            raw::model_start_test(&words, &[WORD; STATE_WORDS][..length], 0, 2, told)
        });
    }
    let state = [&state_after(&words, DISPATCHED)[..], &[WORD; 3]].concat();
    tells(&[0], 0, |told| {
        raw::model_start_test(&words, &state, 0, 2, told)
    });
}

/// Any numbers stand for some model and some state, and START is taken there exactly
/// at 0.
#[test]
fn start_test_on_numbers_of_any_content() {
    let m = words_of_m();
    for words in [
        &m[..],
        &[],
        &m[..20],
        &[u32::MAX; MODEL_WORDS],
        &[WORD; 900],
    ] {
        for state in [
            [u32::MAX; STATE_WORDS],
            [2; STATE_WORDS],
            [WORD; STATE_WORDS],
        ] {
            for thread in [0, 3, 15, 16, 255, 256] {
                let mut told = [PLACE];
                assert_eq!(
                    raw::model_start_test(words, &state, thread, 2, &mut told),
                    0
                );
                assert!(told[0] <= 4, "{told:?}");
                let Ok(id) = u8::try_from(thread) else {
                    continue;
                };
                let start = [0x04, id, 2, 0, 0, 0];
                let answer = raw::model_step(words, &mut state.clone(), &start);
                assert_eq!(answer, if told[0] == 0 { 0 } else { 10 }, "{thread}");
            }
        }
    }
}
