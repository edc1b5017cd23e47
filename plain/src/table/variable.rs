//! The numbers of the table's variables.

/// All variables are below this number.
pub const COUNT: usize = 288;

pub const NOW: usize = 0;
pub const MODE: usize = 1;
pub const PHASE: usize = 2;
pub const PENDING: usize = 3;
pub const ENTERED_AT: usize = 4;
pub const CPU: usize = 5;

pub fn active(thread: usize) -> usize {
    16 + thread
}

pub fn state(thread: usize) -> usize {
    32 + thread
}

pub fn dispatch_time(thread: usize) -> usize {
    48 + thread
}

pub fn due(thread: usize) -> usize {
    64 + thread
}

pub fn end(thread: usize) -> usize {
    80 + thread
}

pub fn behavior_state(thread: usize) -> usize {
    96 + thread
}

pub fn missed(thread: usize) -> usize {
    112 + thread
}

/// Flag.
pub fn connection_active(connection: usize) -> usize {
    128 + connection
}

pub fn input_port(port: usize) -> usize {
    160 + port
}

pub fn port_buffer(port: usize) -> usize {
    192 + port
}

pub fn output_port(port: usize) -> usize {
    224 + port
}

pub fn local(local: usize) -> usize {
    256 + local
}
