//! The items of a model that pictures and words speak of, with their names.

use crate::format::{Item, MODEL};
use crate::names::Names;
use crate::record::{records, Record};

pub struct Thread {
    pub name: String,
    pub period: i64,
    pub deadline: i64,
    /// How long a job may take.
    pub min: i64,
    pub max: i64,
    /// Whether its jobs are finished when its mode is over; those of others are stopped.
    pub critical: bool,
}

pub struct Connection {
    pub delayed: bool,
    /// The threads that own its ports.
    pub source: usize,
    pub target: usize,
    pub input: i64,
    /// `raw to raw`.
    pub words: String,
}

pub struct Transition {
    pub from: String,
    pub to: String,
}

pub struct Items {
    pub threads: Vec<Thread>,
    pub connections: Vec<Connection>,
    pub modes: Vec<String>,
    pub transitions: Vec<Transition>,
}

impl Items {
    /// The items of an accepted model.
    pub fn of(model: &[u8], names: &Names) -> Items {
        let records = records(&MODEL, model);
        let all = |item| {
            let of_item = records.iter().filter(move |record| record.is(item));
            of_item.collect::<Vec<&Record>>()
        };
        let owners = |item| {
            let owner = |port: &&Record| field(port, "thread") as usize;
            all(item).iter().map(owner).collect::<Vec<usize>>()
        };
        let (inputs, outputs) = (owners(Item::Input), owners(Item::Output));
        let mode = |number| names.or_number(Item::Mode, number);
        let count = all(Item::Head)
            .first()
            .map_or(0, |head| field(head, "modes"));
        let transition = |record: &&Record| Transition {
            from: mode(field(record, "from mode")),
            to: mode(field(record, "to mode")),
        };
        let connection = |record: &&Record| connection(record, &inputs, &outputs, names);
        Items {
            threads: all(Item::Thread)
                .iter()
                .map(|one| thread(one, names))
                .collect(),
            connections: all(Item::Connection).iter().map(connection).collect(),
            modes: (0..count).map(mode).collect(),
            transitions: all(Item::Transition).iter().map(transition).collect(),
        }
    }
}

fn field(record: &Record, word: &str) -> i64 {
    record.value(word).expect("an accepted record is whole")
}

fn thread(record: &Record, names: &Names) -> Thread {
    Thread {
        name: names.or_number(Item::Thread, record.number as i64),
        period: field(record, "period"),
        deadline: field(record, "deadline"),
        min: field(record, "min"),
        max: field(record, "max"),
        critical: field(record, "critical") == 1,
    }
}

fn connection(record: &Record, inputs: &[usize], outputs: &[usize], names: &Names) -> Connection {
    let (output, input) = (field(record, "output"), field(record, "to input"));
    let (from, to) = (
        names.or_number(Item::Output, output),
        names.or_number(Item::Input, input),
    );
    Connection {
        delayed: field(record, "type") == 1,
        source: outputs[output as usize],
        target: inputs[input as usize],
        input,
        words: format!("{from} to {to}"),
    }
}
