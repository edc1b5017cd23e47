//! The models that are measured, with their tables and scripts.

use std::cell::OnceCell;
use std::rc::Rc;

use crate::models;
use crate::scripts::Script;

/// How much of each is measured.
#[derive(Clone, Copy)]
pub struct Amounts {
    /// Most events of a script.
    pub events: usize,
    /// Most ticks of a script with long TICKs.
    pub ticks: u64,
}

/// A model with its table, and the same with long periods.
pub struct Subject {
    pub quick: Pair,
    pub slow: Pair,
    amounts: Amounts,
    /// Scripts are made when first asked for.
    events: OnceCell<Rc<Script>>,
    long_ticks: OnceCell<Rc<Script>>,
    single_ticks: OnceCell<Rc<Script>>,
}

impl Subject {
    pub fn periodic(threads: usize, amounts: Amounts) -> Subject {
        let slow = models::periodic(threads, models::greatest_unit(threads));
        Subject::new(models::periodic(threads, 1), slow, amounts)
    }

    pub fn full(amounts: Amounts) -> Subject {
        let slow = models::full(models::GREATEST_FULL_UNIT);
        Subject::new(models::full(1), slow, amounts)
    }

    fn new(quick: Vec<u8>, slow: Vec<u8>, amounts: Amounts) -> Subject {
        Subject {
            quick: Pair::new(quick),
            slow: Pair::new(slow),
            amounts,
            events: OnceCell::new(),
            long_ticks: OnceCell::new(),
            single_ticks: OnceCell::new(),
        }
    }

    pub fn events(&self) -> &Rc<Script> {
        let script = || Script::of(&self.quick.read(), self.amounts.events, u64::MAX);
        self.events.get_or_init(|| Rc::new(script()))
    }

    pub fn long_ticks(&self) -> &Rc<Script> {
        let script = || Script::of(&self.slow.read(), usize::MAX, self.amounts.ticks);
        self.long_ticks.get_or_init(|| Rc::new(script()))
    }

    pub fn single_ticks(&self) -> &Rc<Script> {
        let events = self.amounts.events;
        let script = || Script::of(&self.slow.read(), events, events as u64).tick_by_tick(events);
        self.single_ticks.get_or_init(|| Rc::new(script()))
    }
}

/// A model and the table made from it.
pub struct Pair {
    pub model: Rc<[u8]>,
    pub table: Rc<[u8]>,
}

impl Pair {
    fn new(model: Vec<u8>) -> Pair {
        let table = futonkestrel::translate_to_vec(&model).expect("the library accepts the model");
        assert!(plain::translate::translate(&model, table.len()).as_ref() == Ok(&table));
        Pair {
            model: model.into(),
            table: table.into(),
        }
    }

    fn read(&self) -> plain::model::Model {
        plain::model::read(&self.model).expect("the plain model accepts the model")
    }
}
