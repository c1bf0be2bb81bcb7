//! Glass controllers, by hand and under a screen.

use crate::common::{Buffers, Kind, panels};
use caption::{Command, Controller, Panel, Refusal, Register, Screen, Setup, Status};

const REGISTERS: [Register; 8] = [
    Register::Command,
    Register::Line,
    Register::FirstByte,
    Register::ByteCount,
    Register::Data,
    Register::Status,
    Register::Enable,
    Register::Reset,
];

/// Busy with a line of two bytes.
fn busy() -> Controller {
    let mut controller = Controller::default();
    for (register, byte) in [(Register::Line, 70), (Register::FirstByte, 18), (Register::ByteCount, 2)] {
        controller.write(register, byte).unwrap();
    }
    controller.command(Command::Line).unwrap();
    controller
}

#[test]
fn each_register_has_its_place() {
    let mut registers: [u8; 8] = [1, 11, 12, 13, 14, 2, 1, 0];
    let mut panel = [0; 1_600];
    for (register, place) in REGISTERS.into_iter().zip(0..) {
        let byte = registers[place];
        let mut controller = Controller::in_buffers(&mut registers, &mut panel).unwrap();
        assert_eq!((register as usize, controller.read(register)), (place, Ok(byte)));
    }
    assert_eq!(registers, [1, 11, 12, 13, 14, 0, 1, 0], "a read of status clears the interrupt bit");
}

#[test]
fn a_line_by_hand_goes_to_its_bytes() {
    let mut controller = busy();
    assert_eq!(controller.registers(), [2, 70, 18, 2, 0, 1, 0, 0]);
    controller.write(Register::Data, 0xaa).unwrap();
    assert_eq!(controller.registers(), [2, 70, 19, 1, 0xaa, 1, 0, 0]);
    controller.write(Register::Data, 0x55).unwrap();
    assert_eq!(controller.registers(), [2, 70, 20, 0, 0x55, 0, 0, 0]);
    let mut expected = vec![0; 1_600];
    expected[70 * 20 + 18..][..2].copy_from_slice(&[0xaa, 0x55]);
    assert_eq!(controller.panel().bytes(), expected);
}

#[test]
fn status_has_busy_and_the_interrupt() {
    let mut controller = busy();
    assert_eq!(controller.status(), Ok(Status { busy: true, interrupt: false }));
    controller.enable_interrupt(true).unwrap();
    controller.write(Register::Data, 1).unwrap();
    controller.write(Register::Data, 2).unwrap();
    assert_eq!(controller.registers()[5..7], [2, 1], "a look clears nothing");
    assert_eq!(controller.status(), Ok(Status { busy: false, interrupt: true }));
    assert_eq!(controller.status(), Ok(Status { busy: false, interrupt: false }));
    controller.enable_interrupt(false).unwrap();
    assert_eq!(controller.registers()[5..7], [0, 0]);
}

#[test]
fn each_command() {
    for (command, number, byte) in [(Command::None, 0, 0xff), (Command::Clear, 1, 0), (Command::Line, 2, 0xff)] {
        let (mut registers, mut panel) = ([0, 79, 19, 1, 0, 0, 0, 0], [0xff; 1_600]);
        Controller::in_buffers(&mut registers, &mut panel).unwrap().command(command).unwrap();
        assert_eq!((registers, panel), ([number, 79, 19, 1, 0, u8::from(number == 2), 0, 0], [byte; 1_600]));
    }
}

#[test]
fn a_reset_and_a_repair_clear_the_registers_alone() {
    for clear in [|it: &mut Controller| it.reset().unwrap(), |it: &mut Controller| it.repair()] {
        let mut controller = busy();
        controller.enable_interrupt(true).unwrap();
        controller.write(Register::Data, 0xaa).unwrap();
        clear(&mut controller);
        assert_eq!(controller.registers(), [0; 8]);
        assert_eq!(controller.panel().line(70)[18..], [0xaa, 0]);
    }
}

/// Panel 2 is driven, the others are not.
const KINDS: [Kind; 4] = [Kind::Direct, Kind::Absent, Kind::Driven, Kind::Direct];

#[test]
fn a_driven_line_raises_the_interrupt_if_it_is_enabled() {
    let mut screen = Screen::open_with(&Setup::new(), panels(KINDS)).unwrap();
    screen.enable_interrupt(2, true).unwrap();
    screen.send(2).unwrap();
    assert_eq!(screen.controller(2).unwrap().registers(), [2, 0, 20, 0, 0, 2, 1, 0]);
    assert_eq!(screen.read_register(2, Register::FirstByte), Ok(20));
    assert_eq!((screen.read_register(2, Register::Status), screen.read_register(2, Register::Status)), (Ok(2), Ok(0)));
    screen.enable_interrupt(2, false).unwrap();
    screen.send(2).unwrap();
    assert_eq!(screen.controller(2).unwrap().registers(), [2, 1, 20, 0, 0, 0, 0, 0]);
    assert!(screen.controller(2).unwrap().panel() == screen.panel(2).unwrap());
    screen.reset_controller(2).unwrap();
    assert_eq!(screen.controller(2).unwrap().registers(), [0; 8]);
}

#[test]
fn registers_are_those_of_the_driven_panel() {
    let mut screen = Screen::open_with(&Setup::new(), panels(KINDS)).unwrap();
    let expected = [Err(Refusal::Lent), Err(Refusal::Lent), Ok(()), Err(Refusal::Lent), Err(Refusal::Panel)];
    for (number, expected) in (0..).zip(expected) {
        assert_eq!(screen.read_register(number, Register::Line).map(drop), expected);
        assert_eq!(screen.enable_interrupt(number, true), expected);
        assert_eq!(screen.reset_controller(number), expected);
        assert_eq!(screen.repair_controller(number), expected);
        assert_eq!(screen.controller(number).map(drop), expected);
    }
}

#[test]
fn a_controller_is_handed_over_with_what_its_panel_shows() {
    let mut controller = busy();
    controller.write(Register::Data, 0xaa).unwrap();
    let panels = [Panel::absent(), Panel::driven(controller), Panel::absent(), Panel::absent()];
    let mut screen = Screen::open_with(&Setup::new(), panels).unwrap();
    assert_eq!(screen.panel(1).unwrap().line(70)[18], 0xaa);
    assert_eq!(screen.send(1), Err(Refusal::Register));
    screen.reset_controller(1).unwrap();
    assert_eq!(screen.sends(1).count(), 80);
    assert_eq!(screen.panel(1), Ok(screen.screen()));
}

#[test]
fn the_image_becomes_what_the_panel_shows() {
    let mut buffers = Buffers::new();
    buffers.panels[2].fill(0x0f);
    buffers.images[2].fill(0xf0);
    buffers.open(&Setup::new(), KINDS).unwrap();
    assert!(buffers.panels[2] == [0x0f; 1_600] && buffers.images[2] == [0x0f; 1_600]);
}

#[test]
fn damaged_registers_are_repaired_by_the_host() {
    let mut buffers = Buffers::new();
    buffers.registers[2].fill(0xff);
    let mut screen = buffers.open(&Setup::new(), KINDS).unwrap();
    assert_eq!((screen.send(2), screen.reset_controller(2)), (Err(Refusal::State), Err(Refusal::State)));
    screen.repair_controller(2).unwrap();
    assert_eq!(screen.controller(2).unwrap().registers(), [0; 8]);
    assert_eq!(screen.sends(2).count(), 80);
}
