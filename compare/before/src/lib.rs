//! The core of an earlier landing, to be called beside that of today: core's own source over another
//! library, whose symbols have other names (see build.rs).

include!(concat!(env!("OUT_DIR"), "/modules.rs"));

pub use library::has;

use calls::{Answer, Call, DeviceCall, DeviceLent, Lent};

/// Give the library a call on a record as it lies there, with `BANDS` bands; it is lent as many bytes of it as
/// its own has.
pub fn answer(call: &Call, lent: Lent) -> Option<Answer> {
    let Lent { record, memory, panel } = lent;
    library::answer(call, Lent { record: own(record), memory, panel })
}

/// The same for a call of the glass controller or of its line driver.
pub fn device_answer(call: &DeviceCall, lent: DeviceLent) -> Option<Answer> {
    let DeviceLent { record, memory, registers, panel, image } = lent;
    library::device_answer(call, DeviceLent { record: own(record), memory, registers, panel, image })
}

fn own(record: &mut [u8]) -> &mut [u8] {
    let length = record.len().min(RECORD);
    &mut record[..length]
}
