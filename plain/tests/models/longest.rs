//! The model with the longest table: the most of every kind, all of it live from
//! the start, and one thread with all behaviour and all connections. Tests of
//! other packages take it from here.

pub fn longest_model() -> Vec<u8> {
    let thread = [
        &[0x02][..],
        &[4, 4, 1, 2].map(u32::to_le_bytes).concat(),
        &[255, 0, 1],
    ];
    let connections: Vec<u8> = (0..32).flat_map(|input| [0x06, 0, 0, input, 255]).collect();
    let assign = |local| [0x0A, 2, local, 0, 0, 1, 0, 0, 0, 0, 0, 0, 0, 0];
    let behaviour = [
        &[0x08, 15, 0, 1][..],
        &[0x09, 0, 2, 0, 0, 7, 0, 0, 0].repeat(4),
        &[0, 1, 2, 3].map(assign).concat(),
    ];
    [
        &[0x01, 8, 1][..],
        &thread.concat().repeat(16),
        &[0x0B, 0, 7, 0, 0, 0].repeat(32),
        &[0x04, 15].repeat(32),
        &[0x05, 15, 7, 0, 0, 0].repeat(32),
        &connections,
        &[0x07, 0, 1].repeat(16),
        &behaviour.concat().repeat(64),
    ]
    .concat()
}
