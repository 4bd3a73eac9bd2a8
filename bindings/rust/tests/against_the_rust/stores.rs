//! Document 01's store, written by the test itself.

use crate::judge::Settings;

pub const BLOCK: usize = 512;
pub const CARRIED: usize = 504;

/// What stands in block 0, byte by byte.
pub fn header(settings: &Settings, reading: u64, state: u64) -> Vec<u8> {
    let mut payload = Vec::new();
    let kind = settings.timed as u32;
    for field in [
        1,
        settings.rows as u32,
        settings.cols,
        settings.t as u32,
        settings.c as u32,
        kind,
    ] {
        payload.extend(field.to_le_bytes());
    }
    let epoch = if settings.timed { settings.epoch } else { 0 };
    for field in [settings.length, epoch, reading, state] {
        payload.extend(field.to_le_bytes());
    }
    payload
}

/// A block of this number around at most 504 bytes.
pub fn block(number: u32, payload: &[u8]) -> Vec<u8> {
    let mut block = number.to_le_bytes().to_vec();
    block.extend(payload);
    block.resize(BLOCK, 0);
    sum_up(&mut block);
    block
}

/// Writes the sum that the block's other bytes ask for.
pub fn sum_up(block: &mut [u8]) {
    let sum = sum_of(block);
    block[508..].copy_from_slice(&sum.to_le_bytes());
}

pub fn sum_of(block: &[u8]) -> u32 {
    (0..508).map(|i| block[i] as u32 * (i as u32 + 1)).sum()
}

/// Blocks one behind another, numbered from 0: the header's and the grid's.
pub fn of_payloads(header: &[u8], grid: &[u8]) -> Vec<u8> {
    let payloads = std::iter::once(header).chain(grid.chunks(CARRIED));
    payloads
        .zip(0..)
        .flat_map(|(payload, number)| block(number, payload))
        .collect()
}

pub fn encode(settings: &Settings, reading: u64, state: u64, grid: &[u8]) -> Vec<u8> {
    of_payloads(&header(settings, reading, state), grid)
}
