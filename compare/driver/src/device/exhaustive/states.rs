//! Registers with each field at 0, at its limit, just above that and at 255.

use calls::register::*;

/// Every choice of one of these values for each register. Data has no limit.
fn each(values: [&'static [u8]; REGISTERS]) -> impl Iterator<Item = [u8; REGISTERS]> {
    let count: usize = values.iter().map(|values| values.len()).product();
    (0..count).map(move |mut number| {
        values.map(|values| {
            let value = values[number % values.len()];
            number /= values.len();
            value
        })
    })
}

const LINES: &[u8] = &[0, 79, 80, 255];
const FIRST_BYTES: &[u8] = &[0, 19, 20, 255];
const BYTE_COUNTS: &[u8] = &[0, 1, 20, 21, 255];

/// Those and such as STATE refuses.
pub fn all() -> impl Iterator<Item = [u8; REGISTERS]> {
    let statuses = &[0, 1, 2, 3, 4, 255];
    each([&[0, 2, 3, 255], LINES, FIRST_BYTES, BYTE_COUNTS, &[7], statuses, &[0, 1, 2, 255], &[0, 1, 255]])
}

/// All that STATE lets pass: not busy with any fields, or busy with such as command 2 takes.
pub fn sound() -> impl Iterator<Item = [u8; REGISTERS]> {
    let commands = &[0, 1, 2];
    let still = each([commands, LINES, FIRST_BYTES, BYTE_COUNTS, &[7], &[0, 2], &[0, 1], &[0]]);
    let busy = each([commands, &[0, 79], &[0, 19], &[1, 20], &[7], &[1, 3], &[0, 1], &[0]]);
    still.chain(busy.filter(|registers| registers[FIRST_BYTE] + registers[BYTE_COUNT] <= 20))
}
