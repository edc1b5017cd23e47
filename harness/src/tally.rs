//! What the cases of a run came to, to show that they are not trivial.

use std::collections::BTreeMap;
use std::fmt::{self, Display, Formatter};

use plain::script::read_event;
use plain::table::{self, Table};

use crate::answers::{
    After, Offers, Said, Step, Translation, Variables, BEHAVIOR_STATE, FIRST_VALUE, MISSED, NOW,
    SIZE_PLACES, THREADS,
};
use crate::case::{Case, Lent};
use crate::ends::TableEnds;
use crate::lending::Lending;
use crate::reach::{add_each, Reach, KINDS, LATE};
use crate::records::{model_body, split};
use crate::refused::Refused;
use crate::starts::{Answered, StartTold, START_PLACES, STEPS};

/// The numbers of refusals, and 0.
pub const NUMBERS: usize = 16;

/// Counts; those in arrays go by number of refusal, 0 for none, or by kind of
/// event.
#[derive(Clone, Default)]
pub struct Tally {
    pub cases: u64,
    pub models: [u64; NUMBERS],
    pub tables: [u64; NUMBERS],
    /// The records of models and tables that were refused.
    pub model_records: Refused,
    pub table_records: Refused,
    /// Translations into too little room or more.
    pub translations: [u64; NUMBERS],
    /// Sizes of tables by the places that were lent for them; more than all stand
    /// last.
    pub sizes: [u64; SIZE_PLACES + 2],
    /// START's tests over bytes by the step told, by places likewise, and of refused
    /// models; and those on numbers of any content. The reach has the others.
    pub start_steps: [u64; STEPS],
    pub start_places: [u64; START_PLACES + 2],
    pub start_refused: u64,
    pub any_starts: [u64; STEPS],
    pub model_events: [u64; NUMBERS],
    pub table_events: [u64; NUMBERS],
    pub lent_steps: [u64; NUMBERS],
    /// The same of tables and indexes of any content.
    pub any_steps: [u64; NUMBERS],
    /// Events after which a model's state was looked at.
    pub shown: u64,
    /// Events taken by models, and by tables that no model made.
    pub taken_by_models: [u64; 12],
    pub taken_by_tables: [u64; 12],
    /// Events taken by models after which a port, buffer or local has another
    /// value.
    pub moved: [u64; 12],
    /// Events offered by models, and by tables that no model made; of TICK the
    /// states where it may pass.
    pub offered_by_models: [u64; 12],
    pub offered_by_tables: [u64; 12],
    /// Events that such a table offers more than once in a state.
    pub offered_twice: u64,
    /// Sums and differences that stopped in such tables, and in single steps.
    pub table_ends: TableEnds,
    /// Runs of at least ten events without a refusal.
    pub whole_runs: u64,
    pub behavior_changes: u64,
    /// The most and the greatest of all cases.
    pub most_taken: u64,
    pub latest_clock: u64,
    pub most_missed: u64,
    pub most_threads: u64,
    pub longest_model: u64,
    pub longest_made_table: u64,
    /// What the events of models did, by number; and those at late clocks after
    /// all the ticks up to there, by kind.
    pub reach: Reach,
    pub far: [u64; 12],
    /// How often each comparison was made.
    pub comparisons: BTreeMap<&'static str, u64>,
}

impl Tally {
    pub fn note_model(&mut self, case: &Case, wanted: &Said) {
        self.models[wanted.read.number as usize] += 1;
        self.model_records.note(&case.model, &wanted.read);
        if wanted.read.number != 0 {
            return;
        }
        let made = case.made.as_ref().map_or(0, Vec::len);
        self.shown += wanted.steps.len() as u64;
        raise(&mut self.longest_model, case.model.len());
        raise(&mut self.longest_made_table, made);
        let threads = split(&case.model, model_body);
        let threads = threads.iter().filter(|record| record[0] == 0x02);
        raise(&mut self.most_threads, threads.count());
        raise(&mut self.most_taken, wanted.run.taken);
        self.whole_runs += u64::from(wanted.run.told.number == 0 && wanted.run.taken >= 10);
        note_events(
            &case.script,
            &wanted.steps,
            &mut self.model_events,
            &mut self.taken_by_models,
        );
        self.note_changes(case, wanted);
    }

    fn note_changes(&mut self, case: &Case, wanted: &Said) {
        let mut before = &wanted.start.variables;
        for step in &wanted.steps {
            let after = &step.after.variables;
            let states = BEHAVIOR_STATE..BEHAVIOR_STATE + THREADS;
            let changed = before[states.clone()] != after[states];
            self.behavior_changes += u64::from(changed);
            if before[FIRST_VALUE..] != after[FIRST_VALUE..] {
                self.moved[usize::from(case.script[step.start])] += 1;
            }
            before = after;
        }
        raise(&mut self.latest_clock, before[NOW] as usize);
        let missed = before[MISSED..MISSED + THREADS].iter().max();
        raise(
            &mut self.most_missed,
            missed.map_or(0, |&most| most as usize),
        );
    }

    /// What the events of a model did, from its start and from a late clock on.
    pub fn note_reach(&mut self, reach: &Reach) {
        self.reach.add(reach);
        add_each(&mut self.far, &reach.late);
    }

    pub fn note_late_reach(&mut self, reach: &Reach) {
        self.reach.add(reach);
    }

    pub fn note_offers_of_model(&mut self, wanted: &[Offers]) {
        note_offers(wanted, &mut self.offered_by_models);
    }

    pub fn note_offers_of_table(&mut self, wanted: &[Offers]) {
        note_offers(wanted, &mut self.offered_by_tables);
        for offers in wanted {
            let pairs = offers.events.windows(2);
            let equal = pairs.filter(|pair| pair[0][..2] == pair[1][..2]);
            self.offered_twice += equal.count() as u64;
        }
    }

    pub fn note_translations(&mut self, wanted: &[Translation]) {
        for translation in wanted {
            self.translations[translation.told.number as usize] += 1;
        }
    }

    pub fn note_sizes(&mut self, found: &[Lending<usize>]) {
        for lending in found {
            self.sizes[lending.after.len().min(SIZE_PLACES + 1)] += 1;
        }
    }

    pub fn note_starts(&mut self, wanted: &StartTold, found: &[Lending<usize>]) {
        match self.start_steps.get_mut(wanted.step) {
            Some(count) => *count += 1,
            None => self.start_refused += 1,
        }
        for lending in found {
            self.start_places[lending.after.len().min(START_PLACES + 1)] += 1;
        }
    }

    /// What is no step is found by the comparison.
    pub fn note_any_starts(&mut self, found: &[Answered]) {
        for answered in found {
            if let Some(count) = self.any_starts.get_mut(answered.told[0]) {
                *count += 1;
            }
        }
    }

    pub fn note_table(&mut self, case: &Case, wanted: &Said) {
        self.tables[wanted.read.number as usize] += 1;
        self.table_records.note(&case.table, &wanted.read);
        note_events(
            &case.table_script,
            &wanted.steps,
            &mut self.table_events,
            &mut self.taken_by_tables,
        );
        if let Ok(table) = table::read(&case.table) {
            let mut before = &wanted.start.variables;
            for step in &wanted.steps {
                let event = &case.table_script[step.start..step.end];
                self.note_ends(&table, before, event, &step.after);
                before = &step.after.variables;
            }
        }
    }

    pub fn note_lent_steps(&mut self, table: &Table, lent: &[Lent], wanted: &[After]) {
        for (lent, after) in lent.iter().zip(wanted) {
            self.lent_steps[after.answer as usize] += 1;
            self.note_ends(table, &lent.variables, &lent.event, after);
        }
    }

    fn note_ends(&mut self, table: &Table, before: &Variables, event: &[u8], after: &After) {
        if after.answer == 0 {
            let (event, _) = read_event(event, 0).expect("it was taken");
            self.table_ends.note(table, before, &event);
        }
    }

    pub fn note_any_steps(&mut self, wanted: &[After]) {
        for after in wanted {
            self.any_steps[after.answer as usize] += 1;
        }
    }

    /// This tally and that of other cases together.
    pub fn add(&mut self, other: &Tally) {
        self.cases += other.cases;
        add_each(&mut self.models, &other.models);
        add_each(&mut self.tables, &other.tables);
        self.model_records.add(&other.model_records);
        self.table_records.add(&other.table_records);
        add_each(&mut self.translations, &other.translations);
        add_each(&mut self.sizes, &other.sizes);
        add_each(&mut self.start_steps, &other.start_steps);
        add_each(&mut self.start_places, &other.start_places);
        self.start_refused += other.start_refused;
        add_each(&mut self.any_starts, &other.any_starts);
        add_each(&mut self.model_events, &other.model_events);
        add_each(&mut self.table_events, &other.table_events);
        add_each(&mut self.lent_steps, &other.lent_steps);
        add_each(&mut self.any_steps, &other.any_steps);
        add_each(&mut self.taken_by_models, &other.taken_by_models);
        add_each(&mut self.taken_by_tables, &other.taken_by_tables);
        add_each(&mut self.moved, &other.moved);
        add_each(&mut self.offered_by_models, &other.offered_by_models);
        add_each(&mut self.offered_by_tables, &other.offered_by_tables);
        self.offered_twice += other.offered_twice;
        self.table_ends.add(&other.table_ends);
        self.shown += other.shown;
        self.whole_runs += other.whole_runs;
        self.behavior_changes += other.behavior_changes;
        self.most_taken = self.most_taken.max(other.most_taken);
        self.latest_clock = self.latest_clock.max(other.latest_clock);
        self.most_missed = self.most_missed.max(other.most_missed);
        self.most_threads = self.most_threads.max(other.most_threads);
        self.longest_model = self.longest_model.max(other.longest_model);
        self.longest_made_table = self.longest_made_table.max(other.longest_made_table);
        self.reach.add(&other.reach);
        add_each(&mut self.far, &other.far);
        for (comparison, count) in &other.comparisons {
            *self.comparisons.entry(comparison).or_default() += count;
        }
    }
}

fn note_events(script: &[u8], steps: &[Step], answers: &mut [u64], taken: &mut [u64]) {
    for step in steps {
        answers[step.after.answer as usize] += 1;
        if step.after.answer == 0 {
            taken[usize::from(script[step.start])] += 1;
        }
    }
}

fn note_offers(wanted: &[Offers], counts: &mut [u64; 12]) {
    for offers in wanted {
        for offer in &offers.events {
            counts[offer[0] as usize] += 1;
        }
        counts[11] += u64::from(offers.tick);
    }
}

fn raise(most: &mut u64, figure: usize) {
    *most = (*most).max(figure as u64);
}

impl Display for Tally {
    fn fmt(&self, formatter: &mut Formatter) -> fmt::Result {
        writeln!(formatter, "{} cases", self.cases)?;
        self.write_numbers(formatter)?;
        self.write_kinds(formatter)?;
        self.write_starts(formatter)?;
        writeln!(
            formatter,
            "states of models looked at: {}; whole runs of ten events or more: {}; \
             changes of a behaviour state: {}; events offered twice: {}",
            self.shown, self.whole_runs, self.behavior_changes, self.offered_twice
        )?;
        writeln!(
            formatter,
            "most: {} events taken, clock {}, Missed {}, {} threads, {} bytes of model, {} of made table",
            self.most_taken,
            self.latest_clock,
            self.most_missed,
            self.most_threads,
            self.longest_model,
            self.longest_made_table
        )?;
        for (what, counts) in [
            ("taken by models", &self.reach.late),
            ("tick by tick", &self.far),
        ] {
            writeln!(formatter, "{what} above clock {LATE}: {}", kinds(counts))?;
        }
        write!(formatter, "{}", self.reach)?;
        writeln!(formatter, "{}", self.table_ends)?;
        let comparisons: Vec<String> = self
            .comparisons
            .iter()
            .map(|(comparison, count)| format!("{comparison} {count}"))
            .collect();
        writeln!(formatter, "compared: {}", comparisons.join(", "))
    }
}

impl Tally {
    /// The counts by number of refusal, of records by kind too.
    fn write_numbers(&self, formatter: &mut Formatter) -> fmt::Result {
        for (what, counts) in [
            ("models", &self.models),
            ("translations", &self.translations),
            ("tables", &self.tables),
            ("events on models", &self.model_events),
            ("events on tables", &self.table_events),
            ("single steps on lent variables", &self.lent_steps),
            ("single steps of any content", &self.any_steps),
        ] {
            writeln!(formatter, "{what}: {}", numbers(counts))?;
        }
        for (what, records) in [
            ("models", &self.model_records),
            ("tables", &self.table_records),
        ] {
            writeln!(formatter, "records of {what} by number and kind: {records}")?;
        }
        Ok(())
    }

    /// The counts by places lent, and by kind of event.
    fn write_kinds(&self, formatter: &mut Formatter) -> fmt::Result {
        let sizes = joined(&self.sizes);
        writeln!(formatter, "sizes by places lent: {sizes}")?;
        for (what, counts) in [
            ("taken by models", &self.taken_by_models),
            ("of these moved a value", &self.moved),
            ("taken by tables", &self.taken_by_tables),
            ("offered by models", &self.offered_by_models),
            ("offered by tables", &self.offered_by_tables),
        ] {
            writeln!(formatter, "{what}: {}", kinds(counts))?;
        }
        Ok(())
    }

    /// What START's test told and met.
    fn write_starts(&self, formatter: &mut Formatter) -> fmt::Result {
        let starts = &self.reach.starts;
        writeln!(
            formatter,
            "START's test by step: {}; over bytes: {}, {} of refused models; by places lent: {}; \
             on numbers of any content: {}",
            joined(&starts.steps),
            joined(&self.start_steps),
            self.start_refused,
            joined(&self.start_places),
            joined(&self.any_starts)
        )?;
        let met = starts.met().map(|(what, count)| format!("{what} {count}"));
        writeln!(formatter, "of these: {}", met.join(", "))
    }
}

/// The counts in the order of the numbers.
fn joined(counts: &[u64]) -> String {
    let counts: Vec<String> = counts.iter().map(u64::to_string).collect();
    counts.join(" ")
}

fn numbers(counts: &[u64]) -> String {
    let mut text = format!("{} accepted", counts[0]);
    for (number, count) in counts.iter().enumerate().skip(1) {
        if *count > 0 {
            text += &format!(", {count} refused with {number}");
        }
    }
    text
}

/// The kinds that there were.
fn kinds(counts: &[u64]) -> String {
    let named = KINDS.iter().zip(&counts[1..]).filter(|named| *named.1 > 0);
    let texts: Vec<String> = named
        .map(|(name, count)| format!("{name} {count}"))
        .collect();
    texts.join(", ")
}
