//! Document 01's model M and its script, some bytes near them, and other models.
#![allow(dead_code)]

use futonkestrel::Size;

/// Head 1, 0; one thread of Period 5, Deadline 4, Min 1, Max 5, mask 1.
pub const M: &[u8] = &[
    0x01, 1, 0, //
    0x02, 5, 0, 0, 0, 4, 0, 0, 0, 1, 0, 0, 0, 5, 0, 0, 0, 1, 0, 0,
];

/// ACTIVATE, DISPATCH, START 2, TICK 2, COMPLETE, TICK 2, DEADLINE.
pub const SCRIPT: &[u8] = &[
    0x01, 0, 0x03, 0, 0x04, 0, 2, 0, 0, 0, 0x0B, 2, 0, 0x05, 0, 0x0B, 2, 0, 0x06, 0,
];

pub const LISTING: &str = "\
1 0 1 0
2 0 3 0
3 0 4 0
4 2 11 2
5 2 5 0
6 4 11 2
7 4 6 0
end 7 0 4
";

/// The numbers of some of the table's variables.
pub const NOW: usize = 0;
pub const CPU: usize = 5;
pub const ACTIVE: usize = 16;
pub const STATE: usize = 32;
pub const DUE: usize = 64;
pub const END: usize = 80;
pub const INPUT: usize = 160;
pub const BUFFER: usize = 192;
pub const OUTPUT: usize = 224;
pub const LOCAL: usize = 256;

/// What stands in an output before a call, to see what the call touched.
pub const BYTE: u8 = 0xA5;
pub const PLACE: usize = 0xA5A5_A5A5;
pub const FIGURE: i32 = 0x5A5A_5A5A;
pub const WORD: u32 = 0x5A5A_5A5A;

pub fn table_of_m() -> Vec<u8> {
    futonkestrel::translate_to_vec(M).expect("M is accepted")
}

/// The size of M's table, counted by hand.
pub const SIZE_OF_M: Size = Size {
    bytes: 1065,
    rules: 14,
    clauses: 38,
    atoms: 38,
    updates: 30,
};

/// The size of a table, counted record by record.
pub fn counted(table: &[u8]) -> Size {
    let (mut starts, mut at) = (0, 0);
    let mut size = Size {
        bytes: table.len(),
        rules: 0,
        clauses: 0,
        atoms: 0,
        updates: 0,
    };
    while at < table.len() {
        let (count, length) = match table[at] {
            0x20 => (&mut starts, 7),
            0x21 => (&mut size.rules, 11),
            0x22 => (&mut size.clauses, 1),
            0x23 => (&mut size.atoms, 9),
            0x24 => (&mut size.updates, 17),
            kind => panic!("a record of kind {kind:02x} at {at}"),
        };
        *count += 1;
        at += length;
    }
    size
}

/// The lesson of a pad, which has all kinds of records.
pub const LESSON: &[u8] = include_bytes!("../../../examples/lesson/model.bin");

/// Behind M: two outputs, a local at each end of 32 bits, and a transition whose sums lie
/// outside: local 0 + 1, local 1 - 1, 0 - local 1, local 1 + -1.
pub const PAST_THE_ENDS: &[u8] = &[
    0x04, 0, 0x04, 0, //
    0x05, 0, 255, 255, 255, 127, 0x05, 0, 0, 0, 0, 128, //
    0x08, 0, 0, 0, //
    0x0A, 2, 0, 1, 2, 0, 0, 0, 0, 0, 1, 0, 0, 0, //
    0x0A, 2, 1, 2, 2, 1, 0, 0, 0, 0, 1, 0, 0, 0, //
    0x0A, 3, 0, 2, 0, 0, 0, 0, 0, 2, 1, 0, 0, 0, //
    0x0A, 3, 1, 1, 2, 1, 0, 0, 0, 0, 255, 255, 255, 255,
];

/// Two modes and the way from the first to the second. Thread 0, which is critical, and
/// thread 1, which is not, are in the first alone.
pub const LEAVING: &[u8] = &[
    0x01, 2, 0, //
    0x02, 2, 0, 0, 0, 2, 0, 0, 0, 1, 0, 0, 0, 1, 0, 0, 0, 1, 1, 0, //
    0x02, 4, 0, 0, 0, 4, 0, 0, 0, 1, 0, 0, 0, 3, 0, 0, 0, 1, 0, 0, //
    0x07, 0, 1,
];

/// Up to ENTER at clock 2: thread 0 is dispatched again and waits, thread 1 has run for 1 of 3.
pub const LEFT_WITH_JOBS: &[u8] = &[
    0x01, 0, 0x01, 1, 0x03, 0, 0x03, 1, 0x04, 0, 1, 0, 0, 0, 0x0B, 1, 0, 0x05, 0, //
    0x04, 1, 3, 0, 0, 0, 0x08, 0, 0x0B, 1, 0, 0x06, 0, 0x03, 0, 0x09, 0,
];
