//! Input ports with a written start: the port and its buffer begin there, in the
//! model and in its table, and go on from there as others do.

mod common;
mod taken;

use common::simulation;
use plain::model::{self, Value};
use plain::script::TICK;
use plain::table::variable::{input_port, local, port_buffer};
use plain::table::{self, LONGEST_TABLE};
use plain::translate::translate;
use taken::variables_after;

/// One mode and two threads of period 4; the input ports stand behind.
fn two_threads() -> Vec<u8> {
    let figures = [4, 4, 1, 2].map(u32::to_le_bytes).concat();
    let thread = [&[0x02], &figures[..], &[1, 0, 0]].concat();
    [&[0x01, 1, 0], &thread[..], &thread].concat()
}

fn started_port(owner: u8, start: i32) -> Vec<u8> {
    [&[0x0B, owner], &start.to_le_bytes()[..]].concat()
}

/// The start records of a model's table for ports and buffers, as they stand.
fn value_starts(model_bytes: &[u8]) -> Vec<(usize, i32)> {
    let bytes = translate(model_bytes, LONGEST_TABLE).expect("an accepted model");
    let table = table::read(&bytes).expect("an accepted table");
    let starts = table.initial_values.iter();
    starts
        .map(|start| (start.variable, start.value))
        .filter(|(variable, _)| *variable >= input_port(0))
        .collect()
}

#[test]
fn both_kinds_share_their_numbers() {
    let ports = [
        started_port(1, 5),
        vec![0x03, 0],
        started_port(0, -7),
        vec![0x03, 1],
    ];
    let model_bytes = [two_threads(), ports.concat()].concat();
    let model = model::read(&model_bytes).expect("an accepted model");
    let found: Vec<(usize, i32)> = model
        .input_ports
        .iter()
        .map(|port| (port.owner, port.start.0))
        .collect();
    assert_eq!(found, [(1, 5), (0, 0), (0, -7), (1, 0)]);
    let state = model::start_state(&model);
    let starts = [5, 0, -7, 0].map(Value);
    assert_eq!(state.input_ports, starts);
    assert_eq!(state.port_buffers, starts);
    assert_eq!(
        value_starts(&model_bytes),
        [
            (input_port(0), 5),
            (input_port(2), -7),
            (port_buffer(0), 5),
            (port_buffer(2), -7),
        ]
    );
    simulation(&model_bytes, &[]).expect("model and table agree");
}

#[test]
fn starts_at_the_ends() {
    for start in [i32::MIN, -1, 1, 255, 256, 65_536, i32::MAX] {
        let model_bytes = [two_threads(), started_port(0, start)].concat();
        let wanted = [(input_port(0), start), (port_buffer(0), start)];
        assert_eq!(value_starts(&model_bytes), wanted);
        simulation(&model_bytes, &[]).expect("model and table agree");
    }
}

/// They stand behind those of Pending, Cpu and both Active.
#[test]
fn bytes_of_the_start_records() {
    let model_bytes = [two_threads(), started_port(0, -2)].concat();
    let table = translate(&model_bytes, LONGEST_TABLE).expect("an accepted model");
    let starts = [
        [0x20, 160, 0, 0xFE, 0xFF, 0xFF, 0xFF],
        [0x20, 192, 0, 0xFE, 0xFF, 0xFF, 0xFF],
    ];
    assert_eq!(table[4 * 7..6 * 7], starts.concat());
    assert_eq!(table[6 * 7], 0x21);
}

#[test]
fn a_start_of_0_is_none() {
    let behind = [0x04, 0, 0x06, 0, 0, 1, 1, 0x08, 1, 0, 0];
    let model = |port: Vec<u8>| [&two_threads(), &port[..], &[0x03, 1], &behind].concat();
    let (written, plain) = (model(started_port(1, 0)), model(vec![0x03, 1]));
    assert_eq!(model::read(&written), model::read(&plain));
    assert_eq!(
        translate(&written, LONGEST_TABLE),
        translate(&plain, LONGEST_TABLE)
    );
    assert_eq!(value_starts(&written), []);
}

/// Thread 0 sends 9 over some connection to port 0 of thread 1, whose start is
/// 5; port 1 of thread 1 starts at 6 and is not connected.
fn sender_and_reader(delayed: bool) -> Vec<u8> {
    let behavior = [0x08, 0, 0, 0];
    let sends_9 = [0x0A, 3, 0, 0, 0, 9, 0, 0, 0, 0, 0, 0, 0, 0];
    [
        &two_threads()[..],
        &started_port(1, 5),
        &started_port(1, 6),
        &[0x04, 0],
        &[0x06, delayed.into(), 0, 0, 1],
        &behavior,
        &sends_9,
    ]
    .concat()
}

/// Port 0 and its buffer, then port 1 and its buffer.
fn values_after(model_bytes: &[u8], script: &[u8]) -> [[i32; 2]; 2] {
    let variables = variables_after(model_bytes, script);
    [0, 1].map(|port| [variables[input_port(port)], variables[port_buffer(port)]])
}

/// Both threads activated and dispatched.
const DISPATCHED: [u8; 8] = [1, 0, 1, 1, 3, 0, 3, 1];
/// The sender's job of one tick, and the reader's.
const SENDER_RUNS: [u8; 11] = [4, 0, 1, 0, 0, 0, TICK, 1, 0, 5, 0];
const READER_STARTS: [u8; 6] = [4, 1, 1, 0, 0, 0];
const READER_RUNS: [u8; 5] = [TICK, 1, 0, 5, 1];
/// The sender's deadline, then that of the reader and its next dispatch.
const SENDER_IS_DUE: [u8; 5] = [TICK, 2, 0, 6, 0];
const READER_IS_DISPATCHED: [u8; 4] = [6, 1, 3, 1];

#[test]
fn a_buffer_keeps_the_start_until_something_is_sent() {
    let delayed = sender_and_reader(true);
    let first_period = [&DISPATCHED[..], &SENDER_RUNS, &READER_STARTS, &READER_RUNS].concat();
    let sent = [&first_period[..], &SENDER_IS_DUE].concat();
    let taken = [&sent[..], &READER_IS_DISPATCHED].concat();
    assert_eq!(values_after(&delayed, &[]), [[5, 5], [6, 6]]);
    assert_eq!(values_after(&delayed, &first_period), [[5, 5], [6, 6]]);
    assert_eq!(values_after(&delayed, &sent), [[5, 9], [6, 6]]);
    assert_eq!(values_after(&delayed, &taken), [[9, 9], [6, 6]]);
}

#[test]
fn an_immediate_connection_overwrites_the_start() {
    let immediate = sender_and_reader(false);
    let sent = [&DISPATCHED[..], &SENDER_RUNS].concat();
    let taken = [&sent[..], &READER_STARTS].concat();
    assert_eq!(values_after(&immediate, &sent), [[5, 9], [6, 6]]);
    assert_eq!(values_after(&immediate, &taken), [[9, 9], [6, 6]]);
}

/// The local that thread 0 sets to its port, which starts at -1, where the port
/// has some value; it starts at 3.
fn local_where_port_is(value: i32) -> i32 {
    let atom = [&[0x09, 0, 1, 0, 0], &value.to_le_bytes()[..]].concat();
    let copies_the_port = [0x0A, 2, 0, 0, 1, 0, 0, 0, 0, 0, 0, 0, 0, 0];
    let model_bytes = [
        &two_threads()[..],
        &started_port(0, -1),
        &[0x05, 0, 3, 0, 0, 0],
        &[0x08, 0, 0, 1],
        &atom,
        &copies_the_port,
    ]
    .concat();
    let script = [&DISPATCHED[..], &SENDER_RUNS].concat();
    variables_after(&model_bytes, &script)[local(0)]
}

#[test]
fn behaviour_reads_the_start() {
    assert_eq!(local_where_port_is(-1), -1);
    assert_eq!(local_where_port_is(0), 3);
}
