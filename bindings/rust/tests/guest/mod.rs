//! The guest of the worked examples.

/// Pages of 16 bytes, 4 pages, 5 writes: of pages 0 and 1 at ticks 0 and 5, of page 1 at tick 1200, of pages 3 and 1 at
/// tick 2500.
#[rustfmt::skip]
pub const TRACE: [u8; 102] = [
    0x50, 0x43, 0x57, 0x54, 1, 4, 0, 0, 4, 0, 0, 0, 5, 0, 0, 0,
    0, 0, 0, 0, 0, 0, 0, 0, 0, 0, 0, 0, 0, 0, 1, 0, 1,
    5, 0, 0, 0, 0, 0, 0, 0, 1, 0, 0, 0, 15, 0, 1, 0, 2,
    0xb0, 4, 0, 0, 0, 0, 0, 0, 1, 0, 0, 0, 0, 0, 1, 0, 3,
    0xc4, 9, 0, 0, 0, 0, 0, 0, 3, 0, 0, 0, 2, 0, 2, 0, 4, 5,
    0xc4, 9, 0, 0, 0, 0, 0, 0, 1, 0, 0, 0, 0, 0, 1, 0, 0,
];
