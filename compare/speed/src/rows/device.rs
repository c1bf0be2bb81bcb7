//! The glass controller: lines that are driven through it, against the core's own direct sends, and single writes
//! and reads of its registers, against plain Rust functions.

use super::sends::{Found, painted, store};
use super::{Row, opened};
use crate::library::Library;
use crate::side::OnBytes;
use crate::{limits, plain};
use calls::layout::PANEL;
use calls::register::*;
use calls::{Answer, Buffers, Call, DeviceCall, DeviceLent};
use driver::core_side::DeviceAnswering;
use std::cell::RefCell;
use std::hint::black_box;

const DRIVE: DeviceCall = DeviceCall::Drive { number: 0 };
const SEND: Call = Call::Send { number: 0 };

/// What a host has for its device beside the panel, which is that of number 0.
struct Device {
    registers: [u8; REGISTERS],
    image: Vec<u8>,
}

impl Device {
    fn new() -> RefCell<Self> {
        RefCell::new(Self { registers: [0; REGISTERS], image: vec![0; PANEL] })
    }

    #[inline]
    fn lend<'a>(&'a mut self, buffers: &'a mut Buffers) -> DeviceLent<'a> {
        let Buffers { record, memory, panels } = buffers;
        DeviceLent {
            record,
            memory,
            registers: &mut self.registers,
            panel: &mut panels[0],
            image: &mut self.image,
        }
    }
}

pub fn rows(core: Option<Library>) -> Vec<Row> {
    let core = core.filter(|core| has_device(*core));
    let mut rows: Vec<Row> = core.map(against_send).into_iter().flatten().collect();
    let busy = [START, 40, 3, 17, 0, BUSY, 0, 0];
    let last = [START, 40, 19, 1, 0, BUSY, 1, 0];
    let data = DeviceCall::Write { register: DATA as u8, value: 0x5a };
    let [status, line] = [STATUS, LINE_NUMBER].map(|register| DeviceCall::Read { register: register as u8 });
    rows.extend([
        against_plain("controller_write, data, plain Rust with its tests", busy, data, core),
        against_plain("controller_write, last byte, plain Rust with its tests", last, data, core),
        against_plain(
            "controller_read, status, plain Rust with its tests",
            [0, 0, 0, 0, 0, INTERRUPT, 1, 0],
            status,
            core,
        ),
        against_plain("controller_read, line, plain Rust with its tests", busy, line, core),
    ]);
    rows
}

fn has_device(core: Library) -> bool {
    core.device_answer(&DRIVE, Device::new().borrow_mut().lend(&mut core.own(opened()))).is_some()
}

fn against_send(core: Library) -> Vec<Row> {
    vec![
        driven("drive, a line of 20 bytes, core's send", [0, 0, 160, 80], core),
        driven("drive, pixels 3-156, core's send", [3, 0, 157, 80], core),
        driven("drive, one byte with edge bits, core's send", [3, 0, 6, 80], core),
        driven("drive, idle, core's send", [0; 4], core),
    ]
}

/// The next line of this rectangle, which the host puts in hand before each turn.
fn driven(name: &str, rect: [u16; 4], core: Library) -> Row {
    let stores = Found::InHand(rect).stores(core.layout, 0);
    let stores_of_send = stores.clone();
    let send = move |buffers: &mut Buffers| {
        store(&mut buffers.record, &stores_of_send);
        black_box(core.answer(black_box(&SEND), buffers.lend(&SEND)));
    };
    let device = Device::new();
    Row::new(name, OnBytes { buffers: core.own(painted()), work: send })
        .with_core(Some(core), painted(), move |core, buffers| {
            store(&mut buffers.record, &stores);
            black_box(core.device_answer(black_box(&DRIVE), device.borrow_mut().lend(buffers)));
        })
        .limit(limits::DRIVE)
}

/// A call on registers that the host stores before each turn.
fn against_plain(name: &str, registers: [u8; REGISTERS], call: DeviceCall, core: Option<Library>) -> Row {
    let asked = move |device: &RefCell<Device>, answering: DeviceAnswering, buffers: &mut Buffers| {
        let mut device = device.borrow_mut();
        device.registers = black_box(registers);
        black_box(answering(black_box(&call), device.lend(buffers)));
    };
    let [beside_plain, beside_core] = [Device::new(), Device::new()];
    // A call by its address, as the core's is.
    let plain: DeviceAnswering = black_box(by_plain);
    let work = move |buffers: &mut Buffers| asked(&beside_plain, plain, buffers);
    Row::new(name, OnBytes { buffers: opened(), work })
        .with_core(core, opened(), move |core, buffers| asked(&beside_core, core.device, buffers))
}

fn by_plain(call: &DeviceCall, lent: DeviceLent) -> Option<Answer> {
    match *call {
        DeviceCall::Write { register, value } => {
            let code = plain::write(lent.registers, lent.panel, register, value);
            Some(Answer { code, numbers: [0; 4] })
        }
        DeviceCall::Read { register } => {
            let [code, value] = plain::read(lent.registers, lent.panel, register);
            Some(Answer { code, numbers: [value, 0, 0, 0] })
        }
        DeviceCall::Drive { .. } => None,
    }
}
