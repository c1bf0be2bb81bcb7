//! Random lists of device calls: registers alone; lines driven from equal panels; and both mixed.

use super::list::{Lending, Lengths, List, Other, Start, Step};
use crate::random::{Random, Windows};
use calls::layout::{GRAPHICS_BASE, MEMORY, PANEL, PANELS, TEXT_BASE, part, word};
use calls::register::*;
use calls::{Call, DeviceCall};

/// How often calls on the screen come between driver calls.
const SCREEN: [(&str, u8); 14] = [
    ("draw_point", 8),
    ("draw_line", 6),
    ("draw_box", 6),
    ("draw_circle", 1),
    ("paint_bitmap_by_bytes", 4),
    ("write_byte", 6),
    ("blink_cursor", 4),
    ("send", 6),
    ("newline", 1),
    ("print", 1),
    ("cls", 1),
    ("reset", 1),
    ("open", 1),
    ("flush", 1),
];

/// The list of this seed.
pub fn list(seed: u64) -> List {
    // Other numbers than the list of other calls has that is made from the same seed.
    let mut random = Random::new(seed.rotate_left(16));
    let seed = if random.one_in(4) { 0 } else { random.number() };
    let registers = random.sound_registers();
    match random.below(8) {
        0..3 => registers_alone(&mut random, Start { registers, seed, record: None, level: None }),
        3..6 => {
            let number = random.below(PANELS) as u8;
            let record = Some(random.driven_record(number));
            driven(&mut random, Start { registers, seed, record, level: Some(number) }, number)
        }
        _ => {
            let record = Some(random.driven_record(0));
            mixed(&mut random, Start { registers, seed, record, level: None })
        }
    }
}

fn registers_alone(random: &mut Random, start: Start) -> List {
    let mut steps = vec![];
    for _ in 0..random.below(120) {
        random.push_register_calls(&mut steps);
    }
    List { start, steps }
}

/// Driver calls of one panel, and between them only such register calls as leave the panel.
fn driven(random: &mut Random, start: Start, number: u8) -> List {
    let windows = windows_of(&start);
    let mut steps = vec![];
    if random.one_in(6) {
        let edge = random.below(2) as u8;
        steps.push(Step::Screen(random.accepted_open(edge)));
    }
    for _ in 0..random.below(300) {
        match random.below(24) {
            0..14 => steps.push(DeviceCall::Drive { number }.into()),
            14..18 => steps.push(Step::Screen(random.screen_call(windows, Some(number)))),
            18..20 => random.push_quiet_calls(&mut steps),
            20 => random.push_busy(&mut steps, number),
            21 => steps.push(DeviceCall::Drive { number: random.above(3) }.into()),
            _ => steps.push(random.lent_another()),
        }
    }
    List { start, steps }
}

/// Driver calls of any panel, calls on the screen, and any register calls.
fn mixed(random: &mut Random, start: Start) -> List {
    let windows = windows_of(&start);
    let mut steps = vec![];
    for _ in 0..random.below(200) {
        match random.below(16) {
            0..6 => steps.push(random.drive().into()),
            6..8 => steps.push(Step::Screen(random.screen_call(windows, None))),
            8..10 => random.push_quiet_calls(&mut steps),
            10..13 => random.push_register_calls(&mut steps),
            _ => steps.push(random.lent_another()),
        }
    }
    List { start, steps }
}

fn windows_of(start: &Start) -> Windows {
    let record = start.record.as_deref().expect("a record");
    Windows { graphics_base: word(record, GRAPHICS_BASE), text_base: word(record, TEXT_BASE) }
}

fn write(register: usize, value: u8) -> Step {
    DeviceCall::Write { register: register as u8, value }.into()
}

impl Random {
    /// A valid record. Half of them have no line for this panel, which is idle then but for what is drawn.
    fn driven_record(&mut self, number: u8) -> Vec<u8> {
        let edge = self.below(2) as u8;
        let mut record = self.valid_record(edge);
        if self.one_in(2) {
            record[part(number as usize)].fill(0);
        }
        record
    }

    fn drive(&mut self) -> DeviceCall {
        DeviceCall::Drive { number: self.panel_number(&[1; PANELS]) }
    }

    /// A call on the screen; no send to the panel that is driven.
    fn screen_call(&mut self, windows: Windows, driven: Option<u8>) -> Call {
        let name = SCREEN[self.weighted(&SCREEN.map(|(_, weight)| weight))].0;
        let call = self.call(Call::number_of(name).expect("a call's name"), windows);
        match (call, driven) {
            (Call::Send { number }, Some(driven)) if number == driven => Call::Send { number: 255 },
            (call, _) => call,
        }
    }

    fn any_write(&mut self) -> DeviceCall {
        let register = self.register_number();
        DeviceCall::Write { register, value: self.register_value(register) }
    }

    fn any_read(&mut self) -> DeviceCall {
        let register = if self.one_in(3) { STATUS as u8 } else { self.register_number() };
        DeviceCall::Read { register }
    }

    fn push_register_calls(&mut self, steps: &mut Vec<Step>) {
        match self.below(12) {
            0..4 => steps.push(self.any_write().into()),
            4..6 => steps.push(self.any_read().into()),
            6..8 => self.push_line(steps),
            8 => {
                let other = Other::registers(self.with_bad_fields());
                let start = DeviceCall::Write { register: COMMAND as u8, value: START };
                steps.push(Step::Device(start, Lending::Other(other)));
            }
            _ => {
                let call = if self.one_in(3) { self.any_read() } else { self.any_write() };
                steps.push(Step::Device(call, Lending::Other(self.other_device())));
            }
        }
    }

    /// Calls that leave the panel and start no line.
    fn push_quiet_calls(&mut self, steps: &mut Vec<Step>) {
        steps.push(match self.below(8) {
            0..3 => write(ENABLE, self.below(2) as u8),
            3 => write(RESET, self.byte()),
            4 => write(COMMAND, NOTHING),
            5 => write(LINE_NUMBER + self.below(3), self.byte()),
            _ => self.any_read().into(),
        });
    }

    /// A line that is started, and driver calls until it is reset.
    fn push_busy(&mut self, steps: &mut Vec<Step>, number: u8) {
        self.push_start(steps);
        for _ in 0..1 + self.below(3) {
            steps.push(DeviceCall::Drive { number }.into());
        }
        if self.one_in(4) {
            steps.push(DeviceCall::Drive { number: self.above(3) }.into());
        }
        steps.push(write(RESET, self.byte()));
    }

    /// Its fields in any order, and command 2; their count.
    fn push_start(&mut self, steps: &mut Vec<Step>) -> usize {
        let fields = self.line_fields();
        let first = self.below(3);
        steps.extend((0..3).map(|k| (first + k) % 3).map(|k| write(LINE_NUMBER + k, fields[k])));
        if self.one_in(3) {
            steps.push(write(ENABLE, self.below(2) as u8));
        }
        steps.push(write(COMMAND, START));
        fields[2] as usize
    }

    /// A line by hand, mostly to its end, now and then with another call between or a byte too many.
    fn push_line(&mut self, steps: &mut Vec<Step>) {
        let count = self.push_start(steps);
        let bytes = if self.one_in(4) { self.below(count + 2) } else { count };
        for _ in 0..bytes {
            if self.one_in(8) {
                let call = if self.one_in(2) { self.any_read() } else { self.any_write() };
                steps.push(call.into());
            }
            steps.push(write(DATA, self.byte()));
        }
        if self.one_in(3) {
            steps.push(DeviceCall::Read { register: STATUS as u8 }.into());
        }
    }

    /// A call that is lent other bytes or lengths.
    fn lent_another(&mut self) -> Step {
        let call = match self.below(6) {
            0 => self.any_write(),
            1 => self.any_read(),
            _ => self.drive(),
        };
        let other =
            if let DeviceCall::Drive { .. } = call { self.other_driver() } else { self.other_device() };
        Step::Device(call, Lending::Other(other))
    }

    /// Other registers, now and then with a wrong length of registers or panel.
    fn other_device(&mut self) -> Other {
        let mut other = Other::registers(self.any_registers());
        if self.one_in(6) {
            if self.one_in(2) {
                // Nothing else is wrong then.
                other.registers = Some(self.sound_registers());
            }
            self.change_length(&mut other.lengths, 2);
        }
        other
    }

    /// Other registers, another record, or wrong lengths.
    fn other_driver(&mut self) -> Other {
        let mut other = Other::same();
        match self.below(8) {
            0..2 => self.change_length(&mut other.lengths, 5),
            2..4 => other.registers = Some(self.any_registers()),
            4..6 => self.change_record(&mut other.record_bytes),
            6 => other.registers = Some(self.sound_registers()),
            _ => {
                other.registers = Some(self.any_registers());
                self.change_record(&mut other.record_bytes);
                if self.one_in(2) {
                    self.change_length(&mut other.lengths, 5);
                }
            }
        }
        other
    }

    /// Change one of the first so many lengths, now and then another one too.
    fn change_length(&mut self, lengths: &mut Lengths, kinds: usize) {
        for _ in 0..if self.one_in(6) { 2 } else { 1 } {
            match self.below(kinds) {
                0 => lengths.registers = self.length(REGISTERS, 8),
                1 => lengths.panel = self.length(PANEL, 40),
                2 => lengths.image = self.length(PANEL, 40),
                3 => lengths.record = self.record_length(),
                _ => lengths.memory = self.length(MEMORY, 300),
            }
        }
    }
}
