//! Turns that random event lists seldom take: connections that come and go
//! between a dispatch and a start.

mod common;
mod taken;

use plain::script::TICK;
use plain::table::variable;
use taken::variables_after;

/// Two modes; a source of period 8 that sends 5 over an immediate connection
/// to a reader of period 8. Both threads are in both modes, none is critical.
fn source_and_reader(connection_mask: u8, initial_mode: u8) -> Vec<u8> {
    let mut model = vec![0x01, 2, initial_mode];
    for _ in 0..2 {
        model.push(0x02);
        model.extend(
            [8u32, 8, 1, 2]
                .iter()
                .flat_map(|figure| figure.to_le_bytes()),
        );
        model.extend([3, 0, 0]);
    }
    model.extend([0x03, 1, 0x04, 0]);
    model.extend([0x06, 0, 0, 0, connection_mask]);
    model.extend([0x07, 0, 1, 0x07, 1, 0]);
    model.extend([0x08, 0, 0, 0]);
    model.extend([0x0A, 3, 0, 0, 0, 5, 0, 0, 0, 0, 0, 0, 0, 0]);
    model
}

/// Both threads activated and dispatched, and the source run for one tick.
const SOURCE_DONE: [u8; 19] = [1, 0, 1, 1, 3, 0, 3, 1, 4, 0, 1, 0, 0, 0, TICK, 1, 0, 5, 0];
const START_READER: [u8; 6] = [4, 1, 1, 0, 0, 0];

/// The reader's input port and its buffer after a script; all events of it are
/// taken, and model and table agree.
fn port_and_buffer(model_bytes: &[u8], script: &[u8]) -> (i32, i32) {
    let variables = variables_after(model_bytes, script);
    (
        variables[variable::input_port(0)],
        variables[variable::port_buffer(0)],
    )
}

#[test]
fn a_live_connection_is_read_at_the_start() {
    let script = [&SOURCE_DONE[..], &START_READER].concat();
    assert_eq!(
        port_and_buffer(&source_and_reader(3, 0), &SOURCE_DONE),
        (0, 5)
    );
    assert_eq!(port_and_buffer(&source_and_reader(3, 0), &script), (5, 5));
}

#[test]
fn a_connection_that_goes_before_the_start_is_not_read() {
    let script = [&SOURCE_DONE[..], &[8, 0, 9, 0], &START_READER].concat();
    assert_eq!(port_and_buffer(&source_and_reader(1, 0), &script), (0, 5));
}

#[test]
fn a_connection_that_is_not_live_carries_nothing() {
    let script = [&SOURCE_DONE[..], &START_READER].concat();
    assert_eq!(port_and_buffer(&source_and_reader(1, 1), &script), (0, 0));
}

/// The new mode has the connection, the old one not: it is live from LEAVE on,
/// which comes later than ENTER.
#[test]
fn a_connection_that_comes_before_the_start_is_read() {
    let activate_and_request = [1, 0, 1, 1, 3, 0, 3, 1, 8, 1, 9, 1];
    let source_starts = [4, 0, 1, 0, 0, 0, TICK, 1, 0];
    let leave_and_complete = [10, 1, 5, 0];
    let before = [
        &activate_and_request[..],
        &source_starts,
        &leave_and_complete,
    ]
    .concat();
    let script = [&before[..], &START_READER].concat();
    assert_eq!(port_and_buffer(&source_and_reader(1, 1), &before), (0, 5));
    assert_eq!(port_and_buffer(&source_and_reader(1, 1), &script), (5, 5));
}
