//! The library's functions as they stand, over slices of any length.
//!
//! All of them are total: any bytes are read, any number is told, and an output
//! that is too short is a case of its own. Numbers of refusals are those of
//! documents 01 and 02, 0 where nothing is refused; [`crate::refusals`] has them
//! all. What is told goes to `told` as far as it has places; places behind stay as
//! they were.

extern "C" {
    fn fk_read_model(
        model: *const u8,
        model_length: usize,
        told: *mut usize,
        told_length: usize,
    ) -> u32;
    fn fk_read_table(
        table: *const u8,
        table_length: usize,
        told: *mut usize,
        told_length: usize,
    ) -> u32;
    fn fk_translate(
        model: *const u8,
        model_length: usize,
        output: *mut u8,
        output_length: usize,
        told: *mut usize,
        told_length: usize,
    ) -> u32;
    fn fk_table_size(
        model: *const u8,
        model_length: usize,
        told: *mut usize,
        told_length: usize,
    ) -> u32;
    fn fk_model_listing(
        model: *const u8,
        model_length: usize,
        script: *const u8,
        script_length: usize,
        output: *mut u8,
        output_length: usize,
    ) -> usize;
    fn fk_table_listing(
        table: *const u8,
        table_length: usize,
        script: *const u8,
        script_length: usize,
        output: *mut u8,
        output_length: usize,
    ) -> usize;
    fn fk_run_model(
        model: *const u8,
        model_length: usize,
        script: *const u8,
        script_length: usize,
        told: *mut usize,
        told_length: usize,
    ) -> u32;
    fn fk_run_table(
        table: *const u8,
        table_length: usize,
        script: *const u8,
        script_length: usize,
        told: *mut usize,
        told_length: usize,
    ) -> u32;
    fn fk_event_length(script: *const u8, script_length: usize) -> usize;
    fn fk_table_start(
        table: *const u8,
        table_length: usize,
        variables: *mut i32,
        variables_length: usize,
    ) -> u32;
    fn fk_table_index(
        table: *const u8,
        table_length: usize,
        index: *mut usize,
        index_length: usize,
    ) -> usize;
    fn fk_table_step(
        table: *const u8,
        table_length: usize,
        index: *const usize,
        index_length: usize,
        variables: *mut i32,
        variables_length: usize,
        event: *const u8,
        event_length: usize,
    ) -> u32;
    fn fk_model_after(
        model: *const u8,
        model_length: usize,
        script: *const u8,
        script_length: usize,
        event: *const u8,
        event_length: usize,
        variables: *mut i32,
        variables_length: usize,
    ) -> u32;
    fn fk_start_test(
        model: *const u8,
        model_length: usize,
        script: *const u8,
        script_length: usize,
        thread: u32,
        length: u32,
        told: *mut usize,
        told_length: usize,
    ) -> u32;
    fn fk_table_enabled(
        table: *const u8,
        table_length: usize,
        index: *const usize,
        index_length: usize,
        variables: *const i32,
        variables_length: usize,
        output: *mut u32,
        output_length: usize,
        told: *mut usize,
        told_length: usize,
    ) -> u32;
    fn fk_model_words() -> usize;
    fn fk_state_words() -> usize;
    fn fk_model_read(
        model: *const u8,
        model_length: usize,
        words: *mut u32,
        words_length: usize,
        told: *mut usize,
        told_length: usize,
    ) -> u32;
    fn fk_model_start(
        words: *const u32,
        words_length: usize,
        state: *mut u32,
        state_length: usize,
    ) -> u32;
    fn fk_model_step(
        words: *const u32,
        words_length: usize,
        state: *mut u32,
        state_length: usize,
        event: *const u8,
        event_length: usize,
    ) -> u32;
    fn fk_model_variables(
        words: *const u32,
        words_length: usize,
        state: *const u32,
        state_length: usize,
        variables: *mut i32,
        variables_length: usize,
    ) -> u32;
    fn fk_model_enabled(
        words: *const u32,
        words_length: usize,
        state: *const u32,
        state_length: usize,
        output: *mut u32,
        output_length: usize,
        told: *mut usize,
        told_length: usize,
    ) -> u32;
    fn fk_model_start_test(
        words: *const u32,
        words_length: usize,
        state: *const u32,
        state_length: usize,
        thread: u32,
        length: u32,
        told: *mut usize,
        told_length: usize,
    ) -> u32;
}

// Each call below hands over pointer and count of slices, which are valid for
// that count; a written slice is borrowed alone, so it overlaps no other.

/// Reads a model. The result is 0 or the number of its refusal; told are start and
/// end of the part refused.
pub fn read_model(model: &[u8], told: &mut [usize]) -> u32 {
    // SAFETY: pointers and counts are those of slices.
    unsafe { fk_read_model(model.as_ptr(), model.len(), told.as_mut_ptr(), told.len()) }
}

/// Reads a table. The result is 0 or the number of its refusal; told are start and
/// end of the part refused.
pub fn read_table(table: &[u8], told: &mut [usize]) -> u32 {
    // SAFETY: pointers and counts are those of slices.
    unsafe { fk_read_table(table.as_ptr(), table.len(), told.as_mut_ptr(), told.len()) }
}

/// Writes the table made from a model to the start of `output`. The result is 0,
/// the number of the model's refusal, or 8 for too short an output; told are start
/// and end of the part refused, and the bytes written. Where it is refused,
/// `output` stays as it was.
pub fn translate(model: &[u8], output: &mut [u8], told: &mut [usize]) -> u32 {
    // SAFETY: pointers and counts are those of slices.
    unsafe {
        fk_translate(
            model.as_ptr(),
            model.len(),
            output.as_mut_ptr(),
            output.len(),
            told.as_mut_ptr(),
            told.len(),
        )
    }
}

/// Tells how long the table of a model is, without making it. The result is 0 or
/// the number of the model's refusal; told are start and end of the part refused,
/// then the table's bytes, rules, clauses, atoms and updates, all 0 where the model
/// is refused.
pub fn table_size(model: &[u8], told: &mut [usize]) -> u32 {
    // SAFETY: pointers and counts are those of slices.
    unsafe { fk_table_size(model.as_ptr(), model.len(), told.as_mut_ptr(), told.len()) }
}

/// Writes as much of the listing of a model's run as `output` has room for. The
/// result is the length of the whole listing.
pub fn model_listing(model: &[u8], script: &[u8], output: &mut [u8]) -> usize {
    // SAFETY: pointers and counts are those of slices.
    unsafe {
        fk_model_listing(
            model.as_ptr(),
            model.len(),
            script.as_ptr(),
            script.len(),
            output.as_mut_ptr(),
            output.len(),
        )
    }
}

/// Writes as much of the listing of a table's run as `output` has room for. The
/// result is the length of the whole listing.
pub fn table_listing(table: &[u8], script: &[u8], output: &mut [u8]) -> usize {
    // SAFETY: pointers and counts are those of slices.
    unsafe {
        fk_table_listing(
            table.as_ptr(),
            table.len(),
            script.as_ptr(),
            script.len(),
            output.as_mut_ptr(),
            output.len(),
        )
    }
}

/// Runs a script on a model up to the first refused event. The result is the
/// number of the refusal, of the model or of the event; told are start and end
/// of its part, the events taken and the clock.
pub fn run_model(model: &[u8], script: &[u8], told: &mut [usize]) -> u32 {
    // SAFETY: pointers and counts are those of slices.
    unsafe {
        fk_run_model(
            model.as_ptr(),
            model.len(),
            script.as_ptr(),
            script.len(),
            told.as_mut_ptr(),
            told.len(),
        )
    }
}

/// Runs a script on a table up to the first refused event, as [`run_model`].
pub fn run_table(table: &[u8], script: &[u8], told: &mut [usize]) -> u32 {
    // SAFETY: pointers and counts are those of slices.
    unsafe {
        fk_run_table(
            table.as_ptr(),
            table.len(),
            script.as_ptr(),
            script.len(),
            told.as_mut_ptr(),
            told.len(),
        )
    }
}

/// The length of the part at the start of a script: a whole event, or a cut or
/// unknown rest; 0 for an empty script.
pub fn event_length(script: &[u8]) -> usize {
    // SAFETY: pointers and counts are those of slices.
    unsafe { fk_event_length(script.as_ptr(), script.len()) }
}

/// Reads a table and sets the first 288 variables as it starts them. The result
/// is the number of a refused table, 8 for fewer than 288 variables, else 0; any
/// but 0 leaves the variables as they were.
pub fn table_start(table: &[u8], variables: &mut [i32]) -> u32 {
    // SAFETY: pointers and counts are those of slices.
    unsafe {
        fk_table_start(
            table.as_ptr(),
            table.len(),
            variables.as_mut_ptr(),
            variables.len(),
        )
    }
}

/// Lists the rules of a table in `index` as far as it has room; places behind
/// stay as they were. The result is how many places list all rules.
pub fn table_index(table: &[u8], index: &mut [usize]) -> usize {
    // SAFETY: pointers and counts are those of slices.
    unsafe { fk_table_index(table.as_ptr(), table.len(), index.as_mut_ptr(), index.len()) }
}

/// Gives one event to a table whose variables are lent. The result is the
/// answer, 0 or 9 to 13, or 8 for fewer than 288 variables; any but 0 leaves the
/// variables as they were. The index is one that [`table_index`] made of the
/// table, into any room; with an empty one the table is walked. The table is not
/// read for faults again: records that are no accepted table have their rules
/// taken as they stand, and an index of other content lists what fits the table.
pub fn table_step(table: &[u8], index: &[usize], variables: &mut [i32], event: &[u8]) -> u32 {
    // SAFETY: pointers and counts are those of slices.
    unsafe {
        fk_table_step(
            table.as_ptr(),
            table.len(),
            index.as_ptr(),
            index.len(),
            variables.as_mut_ptr(),
            variables.len(),
            event.as_ptr(),
            event.len(),
        )
    }
}

/// Lists what is enabled: kind, id, shortest and longest length of each event,
/// in the order of kind, then id. The result is 0, or 8 for fewer than 288
/// variables or too short an `output`, which then stays as it was; told are the
/// count of events, and 1 where a TICK may pass, else 0.
pub fn table_enabled(
    table: &[u8],
    index: &[usize],
    variables: &[i32],
    output: &mut [u32],
    told: &mut [usize],
) -> u32 {
    // SAFETY: pointers and counts are those of slices.
    unsafe {
        fk_table_enabled(
            table.as_ptr(),
            table.len(),
            index.as_ptr(),
            index.len(),
            variables.as_ptr(),
            variables.len(),
            output.as_mut_ptr(),
            output.len(),
            told.as_mut_ptr(),
            told.len(),
        )
    }
}

/// Runs a script on a model from its start, going on after refused events, then
/// gives `event` to the state left. The result is the number of a refused model,
/// 8 for fewer than 288 variables, both with the variables as they were; else
/// the answer to the event, and the first 288 variables hold what each of the
/// table's variables stands for afterwards, with 0 for Due and End.
pub fn model_after(model: &[u8], script: &[u8], event: &[u8], variables: &mut [i32]) -> u32 {
    // SAFETY: pointers and counts are those of slices.
    unsafe {
        fk_model_after(
            model.as_ptr(),
            model.len(),
            script.as_ptr(),
            script.len(),
            event.as_ptr(),
            event.len(),
            variables.as_mut_ptr(),
            variables.len(),
        )
    }
}

/// Runs a script on a model from its start, going on after refused events, and
/// tests whether START of this thread and length is taken in the state left. The
/// result is 0 or the number of the model's refusal; told are start and end of the
/// part refused, then the number of a [`crate::StartStep`]. Of a refused model no
/// step is told, and its place stays as it was: 0 there would say that START is
/// taken.
pub fn start_test(
    model: &[u8],
    script: &[u8],
    thread: u32,
    length: u32,
    told: &mut [usize],
) -> u32 {
    // SAFETY: pointers and counts are those of slices.
    unsafe {
        fk_start_test(
            model.as_ptr(),
            model.len(),
            script.as_ptr(),
            script.len(),
            thread,
            length,
            told.as_mut_ptr(),
            told.len(),
        )
    }
}

/// How many numbers a model takes that is read by [`model_read`].
pub fn model_words() -> usize {
    // SAFETY: nothing is handed over.
    unsafe { fk_model_words() }
}

/// How many numbers a state takes.
pub fn state_words() -> usize {
    // SAFETY: nothing is handed over.
    unsafe { fk_state_words() }
}

/// Reads a model into `words`. The result is 0, or the number of the model's
/// refusal, or 8 for fewer words than a model takes; any but 0 leaves the words as
/// they were. Told are start and end of the part refused.
pub fn model_read(model: &[u8], words: &mut [u32], told: &mut [usize]) -> u32 {
    // SAFETY: pointers and counts are those of slices.
    unsafe {
        fk_model_read(
            model.as_ptr(),
            model.len(),
            words.as_mut_ptr(),
            words.len(),
            told.as_mut_ptr(),
            told.len(),
        )
    }
}

/// Sets a state as a model starts. The result is 0, or 8 for fewer numbers than
/// a state takes, which then stay as they were.
pub fn model_start(words: &[u32], state: &mut [u32]) -> u32 {
    // SAFETY: pointers and counts are those of slices.
    unsafe { fk_model_start(words.as_ptr(), words.len(), state.as_mut_ptr(), state.len()) }
}

/// Gives one event to a model whose state is lent. The result is the answer, 0
/// or 9 to 11, or 8 for fewer numbers than a state takes; any but 0 leaves the
/// state as it was.
pub fn model_step(words: &[u32], state: &mut [u32], event: &[u8]) -> u32 {
    // SAFETY: pointers and counts are those of slices.
    unsafe {
        fk_model_step(
            words.as_ptr(),
            words.len(),
            state.as_mut_ptr(),
            state.len(),
            event.as_ptr(),
            event.len(),
        )
    }
}

/// Sets the first 288 variables to what they stand for in a state, Due for
/// threads with a job in hand and End for the one that runs among them. The
/// result is 0, or 8 for fewer variables, which then stay as they were.
pub fn model_variables(words: &[u32], state: &[u32], variables: &mut [i32]) -> u32 {
    // SAFETY: pointers and counts are those of slices.
    unsafe {
        fk_model_variables(
            words.as_ptr(),
            words.len(),
            state.as_ptr(),
            state.len(),
            variables.as_mut_ptr(),
            variables.len(),
        )
    }
}

/// Lists what is enabled in a state, as [`table_enabled`]; the result is 8 for a
/// state that is too short as well.
pub fn model_enabled(words: &[u32], state: &[u32], output: &mut [u32], told: &mut [usize]) -> u32 {
    // SAFETY: pointers and counts are those of slices.
    unsafe {
        fk_model_enabled(
            words.as_ptr(),
            words.len(),
            state.as_ptr(),
            state.len(),
            output.as_mut_ptr(),
            output.len(),
            told.as_mut_ptr(),
            told.len(),
        )
    }
}

/// Tests whether START of this thread and length is taken in a state. The result
/// is 0, and told is the number of a [`crate::StartStep`]; or 8 for fewer numbers
/// than a state takes, and then nothing is told.
pub fn model_start_test(
    words: &[u32],
    state: &[u32],
    thread: u32,
    length: u32,
    told: &mut [usize],
) -> u32 {
    // SAFETY: pointers and counts are those of slices.
    unsafe {
        fk_model_start_test(
            words.as_ptr(),
            words.len(),
            state.as_ptr(),
            state.len(),
            thread,
            length,
            told.as_mut_ptr(),
            told.len(),
        )
    }
}
