//! One case, checked: what is wanted and what is found of each of its inputs,
//! compared by name.

use plain::table;

use crate::answers::{
    After, Listed, Listing, Offers, Said, Size, Step, Translation, Variables, BEHIND, NOW,
    SIZE_PLACES,
};
use crate::case::{Case, Late, Lent};
use crate::compare::{self, Check};
use crate::found::Indexes;
use crate::loose::Rules;
use crate::starts::{self, Asked, StartTold, START_PLACES};
use crate::stepped::{self, StateWalk};
use crate::tally::Tally;
use crate::{found, wanted};

/// A table that runs a script from some variables on.
struct TableRun<'a> {
    table: &'a [u8],
    script: &'a [u8],
    start: &'a Variables,
}

/// A comparison that failed, and how.
pub struct Difference {
    pub comparison: &'static str,
    pub text: String,
}

/// All comparisons of one case. The result is those that failed.
pub fn check(case: &Case, tally: &mut Tally) -> Vec<Difference> {
    let mut checker = Checker {
        tally,
        differences: Vec::new(),
    };
    checker.tally.cases += 1;
    let (of_model, on_state) = checker.model(case);
    if let Some(made) = checker.translation(case) {
        checker.made_table(case, &made, &of_model, &on_state);
        if let Some(late) = &case.late {
            checker.late(case, late, &made);
        }
    }
    checker.table(case);
    checker.differences
}

struct Checker<'a> {
    tally: &'a mut Tally,
    differences: Vec<Difference>,
}

impl Checker<'_> {
    fn note(&mut self, comparison: &'static str, check: Check) {
        *self.tally.comparisons.entry(comparison).or_default() += 1;
        if let Err(text) = check {
            self.differences.push(Difference { comparison, text });
        }
    }

    /// The model and its script. The result is what the library says, of the
    /// whole script and event by event.
    fn model(&mut self, case: &Case) -> (Said, StateWalk) {
        let (wanted, reach) = wanted::of_model(&case.model, &case.script, case.more_rooms);
        self.tally.note_model(case, &wanted);
        self.tally.note_reach(&reach);
        let walk = self.on_state(case, &wanted);
        self.start_tests(case, &wanted, &walk);
        let found = found::of_model(&case.model, &case.script, &rooms(&wanted), &walk);
        self.note("model_reading", compare::reading(&wanted.read, &found.read));
        self.note("model_start", compare::start(&wanted.start, &found.start));
        if wanted.read.number == 0 {
            let parts = found::part_lengths(&case.script);
            self.note("event_parts", compare::event_parts(&wanted.steps, &parts));
        }
        self.note(
            "model_answers",
            compare::answers(&wanted.steps, &found.steps),
        );
        self.note(
            "model_variables",
            compare::variables(&wanted.steps, &found.steps),
        );
        self.note("model_run", compare::run(&wanted.run, &found.run));
        self.note(
            "model_listing",
            compare::listing(&wanted.listings, &found.listings),
        );
        self.note("listing_room", compare::listing_room(&found.listings));
        (found, walk)
    }

    /// The model on a state that is lent, through the whole script; then on
    /// numbers of any content.
    fn on_state(&mut self, case: &Case, wanted: &Said) -> StateWalk {
        let asked = &wanted.asked;
        let found = stepped::on_state(&case.model, &case.script, asked, case.more_rooms);
        let short = wanted.read.into_too_little(case.model.len());
        let read = compare::reading(&wanted.read, &found.read);
        let read = read.and_then(|()| compare::reading(&short, &found.short_read));
        self.note("state_reading", read);
        let steps = (&wanted.steps, &found.steps);
        self.note("state_answers", compare::answers(steps.0, steps.1));
        let shown = compare::shown(&wanted.shown, &found.shown);
        self.note("state_variables", shown);
        let kept = compare::lendings(&found.lendings);
        let room = kept.and_then(|()| compare::short(&found.short));
        self.note("state_room", room);
        self.tally.note_offers_of_model(&wanted.offers);
        let enabled = compare::enabled(&wanted.offers, &found.offers);
        self.note("model_enabled", enabled);
        self.note("enabled_room", compare::enabled_room(&found.offers));
        if found.read.number == 0 {
            let event = futonkestrel::events(&case.script).next();
            let any = stepped::any_state(&found, &case.spoils, event.unwrap_or_default());
            self.tally.note_any_starts(&any.starts);
            self.note("any_state", compare::any_state(&any));
        }
        found
    }

    /// START's test on the states that were walked, and over bytes, told into all
    /// places and into fewer.
    fn start_tests(&mut self, case: &Case, wanted: &Said, walk: &StateWalk) {
        let mut places = vec![START_PLACES + BEHIND];
        if case.more_rooms {
            places.extend(0..=START_PLACES);
        } else {
            places.push(case.number as usize % (START_PLACES + 1));
        }
        let (mut told, mut room) = (Ok(()), Ok(()));
        for (end, question) in starts::over_bytes(case.number as usize, &case.script, wanted) {
            let script = &case.script[..end];
            let wanted = wanted::start_test(&case.model, script, question);
            let found = found::start_tests(&case.model, script, question, &places);
            self.tally.note_starts(&wanted, &found);
            let found_told = StartTold::of(&found[0]);
            told = told.and_then(|()| compare::start_told(&wanted, &found_told));
            room = room.and_then(|()| compare::start_places(&found));
        }
        self.note("start_told", told);
        if walk.read.number == 0 {
            let on_state = compare::state_start_places(&walk.start_places, &walk.start_short);
            room = room.and(on_state);
            self.start_steps(&wanted.asked, walk);
        }
        self.note("start_places", room);
    }

    fn start_steps(&mut self, asked: &[Vec<Asked>], walk: &StateWalk) {
        let steps = compare::start_step(asked, &walk.starts);
        self.note("start_step", steps);
        self.note("start_taken", compare::start_taken(&walk.starts));
    }

    /// Translations into just enough room, one byte less, and more. The result
    /// is the table that the library made.
    fn translation(&mut self, case: &Case) -> Option<Vec<u8>> {
        let length = case.made.as_ref().map_or(20, Vec::len);
        let rooms = match case.made {
            Some(_) if case.more_rooms => vec![length, length - 1, length + 9, 0],
            Some(_) => vec![length, length - 1],
            None => vec![length],
        };
        let wanted = |&room| wanted::translation(&case.model, room);
        let wanted: Vec<Translation> = rooms.iter().map(wanted).collect();
        let found = |&room| found::translation(&case.model, room);
        let mut found: Vec<Translation> = rooms.iter().map(found).collect();
        self.tally.note_translations(&wanted);
        self.note(
            "translation_told",
            compare::translation_told(&wanted, &found),
        );
        self.note(
            "translation_bytes",
            compare::translation_bytes(&wanted, &found),
        );
        self.note("translation_room", compare::translation_room(&found));
        self.size(case, &found);
        let mut first = found.swap_remove(0);
        first.output.truncate(first.length);
        (first.told.number == 0).then_some(first.output)
    }

    /// The size of the table, told into all places and into fewer, against the
    /// plain model and against the translations.
    fn size(&mut self, case: &Case, made: &[Translation]) {
        let mut places = vec![SIZE_PLACES + BEHIND];
        if case.more_rooms {
            places.extend(0..=SIZE_PLACES);
        } else {
            places.push(case.number as usize % (SIZE_PLACES + 1));
        }
        let found = found::sizes(&case.model, &places);
        self.tally.note_sizes(&found);
        let size = Size::of(&found[0]);
        let wanted = wanted::size(&case.model);
        self.note("size_told", compare::size_told(&wanted, &size));
        self.note("size_places", compare::size_places(&found));
        self.note("size_made", compare::size_made(&size, made));
    }

    /// The table that the library made, against the plain model and against the
    /// model's run.
    fn made_table(&mut self, case: &Case, made: &[u8], of_model: &Said, on_state: &StateWalk) {
        let wanted = wanted::of_table(made, &case.script, case.more_rooms);
        let found = found::of_table(made, &case.script, &rooms(&wanted));
        self.table_comparisons(&wanted, &found);
        let run = TableRun {
            table: made,
            script: &case.script,
            start: &found.start.variables,
        };
        let offers = self.by_index(case, &run, &wanted.steps, &wanted.offers);
        let alike = compare::enabled_alike(&on_state.offers, &offers);
        self.note("enabled_alike", alike);
        self.lent_steps(case, made, &case.lent_to_made);
        let agree = compare::demand_three(&case.model, &case.script, of_model, &found);
        self.note("demand_three", agree);
    }

    /// The model and its table from a late clock on, event by event.
    fn late(&mut self, case: &Case, late: &Late, made: &[u8]) {
        let walk = self.late_state(case, late);
        let wanted = wanted::of_late_table(made, late);
        let mut start = found::table_start(made).variables;
        start[NOW] = late.clock as i32;
        let run = TableRun {
            table: made,
            script: &late.script,
            start: &start,
        };
        let steps = found::table_steps(&Indexes::new(made, &[]), &start, &late.script);
        self.note("table_answers", compare::answers(&wanted.steps, &steps));
        let variables = compare::variables(&wanted.steps, &steps);
        self.note("table_variables", variables);
        let offers = self.by_index(case, &run, &wanted.steps, &wanted.offers);
        let alike = compare::enabled_alike(&walk.offers, &offers);
        self.note("enabled_alike", alike);
        if let Some(shown) = walk.shown.first() {
            let (starts, steps) = ((&shown.variables, &start), (&walk.steps[..], &steps[..]));
            let agree = compare::lockstep(&case.model, &late.script, starts, steps);
            self.note("demand_three", agree);
        }
    }

    /// The model alone.
    fn late_state(&mut self, case: &Case, late: &Late) -> StateWalk {
        let (wanted, reach) = wanted::of_late_model(&case.model, late);
        self.tally.note_late_reach(&reach);
        let (script, asked) = (&late.script, &wanted.asked);
        let rooms = case.more_rooms;
        let found = stepped::on_late_state(&case.model, late.clock, script, asked, rooms);
        let answers = compare::answers(&wanted.steps, &found.steps);
        self.note("state_answers", answers);
        let shown = compare::shown(&wanted.shown, &found.shown);
        self.note("state_variables", shown);
        let enabled = compare::enabled(&wanted.offers, &found.offers);
        self.note("model_enabled", enabled);
        self.start_steps(&wanted.asked, &found);
        found
    }

    /// Any other table.
    fn table(&mut self, case: &Case) {
        let wanted = wanted::of_table(&case.table, &case.table_script, case.more_rooms);
        let found = found::of_table(&case.table, &case.table_script, &rooms(&wanted));
        self.tally.note_table(case, &wanted);
        self.table_comparisons(&wanted, &found);
        self.tally.note_offers_of_table(&wanted.offers);
        let run = TableRun {
            table: &case.table,
            script: &case.table_script,
            start: &found.start.variables,
        };
        self.by_index(case, &run, &wanted.steps, &wanted.offers);
        self.lent_steps(case, &case.table, &case.lent_to_table);
    }

    /// A table by its index, whole and short, through the whole script; a refused
    /// one takes no step. The result is what it offers along the way.
    fn by_index(
        &mut self,
        case: &Case,
        run: &TableRun,
        wanted: &[Step],
        wanted_offers: &[Offers],
    ) -> Vec<Listed> {
        let size = stepped::index_size(run.table);
        let indexes = stepped::indexes(run.table, &[size + 3, case.short_index, size, 0]);
        self.note("index_room", compare::index_room(&indexes));
        let indexes = [&indexes[2].1, &indexes[1].1, &Vec::new()];
        let indexes = indexes.map(|index| Indexes::new(run.table, index));
        let mut stages = vec![*run.start];
        for index in &indexes[..2] {
            let mut steps = Vec::new();
            if !wanted_offers.is_empty() {
                steps = found::table_steps(index, run.start, run.script);
            }
            self.note("indexed_answers", compare::answers(wanted, &steps));
            self.note("indexed_variables", compare::variables(wanted, &steps));
            stages.truncate(1);
            stages.extend(steps.iter().map(|step| step.after.variables));
        }
        let offers = |(number, variables): (usize, &Variables)| {
            // Most of them without a walk.
            let index = indexes[[0, 1, 0, 0, 2, 0][number % 6]].at(number);
            stepped::table_offers(run.table, index, variables, case.more_rooms)
        };
        let stages = stages.iter().take(wanted_offers.len()).enumerate();
        let offers: Vec<Listed> = stages.map(offers).collect();
        let enabled = compare::enabled(wanted_offers, &offers);
        self.note("table_enabled", enabled);
        self.note("enabled_room", compare::enabled_room(&offers));
        offers
    }

    fn table_comparisons(&mut self, wanted: &Said, found: &Said) {
        self.note("table_reading", compare::reading(&wanted.read, &found.read));
        self.note("table_start", compare::start(&wanted.start, &found.start));
        self.note(
            "table_answers",
            compare::answers(&wanted.steps, &found.steps),
        );
        self.note(
            "table_variables",
            compare::variables(&wanted.steps, &found.steps),
        );
        self.note("table_run", compare::run(&wanted.run, &found.run));
        self.note(
            "table_listing",
            compare::listing(&wanted.listings, &found.listings),
        );
        self.note("listing_room", compare::listing_room(&found.listings));
    }

    /// Single steps on variables that no run need have led to, and what is enabled
    /// there.
    fn lent_steps(&mut self, case: &Case, bytes: &[u8], lent: &[Lent]) {
        let found = |lent: &Lent| found::lent_step(bytes, &[], &lent.variables, &lent.event);
        let found: Vec<After> = lent.iter().map(found).collect();
        match table::read(bytes) {
            Ok(table) => {
                let wanted = |lent: &Lent| wanted::lent_step(&table, &lent.variables, &lent.event);
                let wanted: Vec<After> = lent.iter().map(wanted).collect();
                self.tally.note_lent_steps(&table, lent, &wanted);
                self.note("lent_steps", compare::lent_steps(&wanted, &found));
                let index = stepped::index_into(bytes, stepped::index_size(bytes));
                let offers = |lent: &Lent| wanted::table_offers(&table, &lent.variables);
                let wanted: Vec<_> = lent.iter().map(offers).collect();
                let offers =
                    |lent: &Lent| stepped::table_offers(bytes, &index, &lent.variables, false);
                let found: Vec<_> = lent.iter().map(offers).collect();
                self.note("table_enabled", compare::enabled(&wanted, &found));
            }
            Err(_) => {
                let rules = Rules::new(bytes, &[]);
                let wanted = |lent: &Lent| rules.step(&lent.variables, &lent.event);
                let wanted: Vec<After> = lent.iter().map(wanted).collect();
                self.tally.note_any_steps(&wanted);
                self.note("any_step", compare::lent_steps(&wanted, &found));
            }
        }
        self.any_indexes(case, bytes, lent);
    }

    /// Steps by indexes that are not the table's: of the case's other table, cut,
    /// and numbers of no table.
    fn any_indexes(&mut self, case: &Case, bytes: &[u8], lent: &[Lent]) {
        let other = match &case.made {
            Some(made) if bytes == case.table => made,
            _ => &case.table,
        };
        let others = stepped::index_into(other, stepped::index_size(other).min(400));
        let mut own = stepped::index_into(bytes, stepped::index_size(bytes));
        own.truncate(case.short_index);
        let indexes = [&others, &own, &case.any_index];
        for (lent, index) in lent.iter().zip(indexes) {
            let rules = Rules::new(bytes, index);
            let wanted = [rules.step(&lent.variables, &lent.event)];
            self.tally.note_any_steps(&wanted);
            let found = [found::lent_step(bytes, index, &lent.variables, &lent.event)];
            let wanted_offers = [rules.offers(&lent.variables)];
            let offers = [stepped::table_offers(bytes, index, &lent.variables, true)];
            let check = compare::lent_steps(&wanted, &found)
                .and_then(|()| compare::enabled(&wanted_offers, &offers))
                .and_then(|()| compare::enabled_room(&offers));
            self.note("any_index", check);
        }
    }
}

/// The outputs that the wanted listings have.
fn rooms(wanted: &Said) -> Vec<usize> {
    let room = |listing: &Listing| listing.output.len();
    wanted.listings.iter().map(room).collect()
}
