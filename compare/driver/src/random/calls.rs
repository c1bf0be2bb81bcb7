//! One random call of a given name.

use super::Random;
use super::numbers::Windows;
use super::texts::Pairs;
use calls::Call;
use calls::layout::PANELS;

impl Random {
    /// A call by its number among `Call::NAMES`, of any panel, with codes outside the gap and edge flag 0.
    pub fn call(&mut self, number: usize, windows: Windows) -> Call {
        match Call::NAMES[number] {
            "open" => self.open(0),
            "reset" => Call::Reset,
            "draw_point" => Call::DrawPoint { x: self.x(), y: self.y(), mode: self.mode(4) },
            "draw_line" => self.line(),
            "draw_box" => Call::DrawBox {
                x1: self.x(),
                y1: self.y(),
                x2: self.x(),
                y2: self.y(),
                fill: self.mode(2),
                mode: self.mode(4),
            },
            "draw_circle" => Call::DrawCircle {
                x: self.x(),
                y: self.y(),
                r: self.radius(),
                fill: self.mode(2),
                mode: self.mode(4),
            },
            "draw_ellipse" => self.ellipse(),
            "check_point" => Call::CheckPoint { x: self.signed(8, 160), y: self.signed(8, 80) },
            "paint_bitmap" => self.painting(windows).by_pixels(),
            "print" => Call::Print { text: self.text(Pairs::OutsideGap) },
            "newline" => Call::Newline,
            "cls" => Call::Cls,
            "flush" => Call::Flush { fonts: self.fonts(Pairs::OutsideGap) },
            "get_row" => Call::GetRow,
            "get_column" => Call::GetColumn,
            "set_row" => Call::SetRow { row: if self.one_in(2) { 4 } else { self.mode(5) } },
            "set_column" => Call::SetColumn {
                column: if self.one_in(2) { self.pick(&[0, 17, 18, 19]) } else { self.mode(20) },
            },
            "set_screen_mode" => Call::SetScreenMode { mode: self.mode(2) },
            "set_print_mode" => Call::SetPrintMode { mode: self.mode(3) },
            "blink_cursor" => Call::BlinkCursor,
            "clear_cursor" => Call::ClearCursor,
            "write_byte" => Call::WriteByte { address: self.poke_address(windows), byte: self.poked() },
            "take_dirty_area" => Call::TakeDirtyArea,
            "send" => Call::Send { number: self.panel_number(&[1; PANELS]) },
            "paint_bitmap_by_bytes" => self.painting(windows).by_bytes(),
            name => unreachable!("no call {name}"),
        }
    }

    /// An open that is accepted, with this edge flag.
    pub fn accepted_open(&mut self, edge: u8) -> Call {
        let Windows { graphics_base, text_base } = self.windows();
        Call::Open { graphics_base, text_base, version: self.below(2) as u8, keys: self.key_words(), edge }
    }

    /// An open that may be refused, told this edge flag.
    pub fn open(&mut self, edge: u8) -> Call {
        let windows = if self.one_in(2) { self.windows() } else { self.any_windows() };
        Call::Open {
            graphics_base: windows.graphics_base,
            text_base: windows.text_base,
            version: self.mode(2),
            keys: self.key_words(),
            edge,
        }
    }

    /// Lines of every slope; some horizontal or vertical, some ending at 255.
    fn line(&mut self) -> Call {
        let (x1, y1, mut x2, mut y2) = (self.x(), self.y(), self.x(), self.y());
        match self.below(8) {
            0 => y2 = y1,
            1 => x2 = x1,
            2 => x2 = 255,
            3 => y2 = self.pick(&[0, 255]),
            _ => {}
        }
        Call::DrawLine { x1, y1, x2, y2, mode: self.mode(4) }
    }

    /// Ellipses; some with a centre plus radius of 255 or just beside it.
    fn ellipse(&mut self) -> Call {
        let (rx, ry) = (self.radius(), self.radius());
        let (mut x, mut y) = (self.x(), self.y());
        match self.below(6) {
            0 => x = (254 + self.below(3) - (rx as usize).min(127)) as u8,
            1 => y = (254 + self.below(3) - (ry as usize).min(127)) as u8,
            _ => {}
        }
        Call::DrawEllipse { x, y, rx, ry, fill: self.mode(2), mode: self.mode(4) }
    }

    fn poked(&mut self) -> u8 {
        match self.below(4) {
            0 => self.pick(&[0, 1, 127, 128, 255]),
            1 => self.byte() | 128,
            _ => self.byte(),
        }
    }
}
