//! The numbers that are told and answered, named as in the header.

/// What every call answers.
pub mod code {
    /// The call is done.
    pub const DONE: u32 = 0;
    /// A buffer has another length than it must have.
    pub const LENT: u32 = 1;
    /// A field of the record, or a register, is out of its range.
    pub const STATE: u32 = 2;
    /// The bases leave no room for screen and text, or these share a byte.
    pub const WINDOW: u32 = 3;
    /// A row, column, mode, version, fill or edge flag that is not listed.
    pub const VALUE: u32 = 4;
    /// A bitmap's source runs past the end of memory.
    pub const SOURCE: u32 = 5;
    /// A radius above 127.
    pub const RADIUS: u32 = 6;
    /// A flush would paint a byte past the end of its font.
    pub const GLYPH: u32 = 7;
    /// A panel's number above 3.
    pub const PANEL: u32 = 9;
    /// A register above 7, a write that is not taken, or a driver call while the controller is busy.
    pub const REGISTER: u32 = 10;
}

/// Which emoji codes there are.
pub mod version {
    /// The older ones.
    pub const V1: u8 = 0;
    /// The newer ones.
    pub const V2: u8 = 1;
}

/// What a horizontal line does beyond the screen's edge.
pub mod edge {
    /// It is drawn in the last column or row.
    pub const CLAMP: u8 = 0;
    /// Its pixels there are left out.
    pub const STOP: u8 = 1;
}

/// Boxes, circles and ellipses.
pub mod fill {
    /// The outline alone.
    pub const OUTLINE: u8 = 0;
    /// Filled.
    pub const FILLED: u8 = 1;
}

/// What drawing does to a pixel.
pub mod draw_mode {
    /// Clears it.
    pub const CLEAR: u8 = 0;
    /// Sets it.
    pub const OR: u8 = 1;
    /// Inverts it.
    pub const XOR: u8 = 2;
    /// Leaves it, but inverts wherever a horizontal line is drawn.
    pub const UNKNOWN: u8 = 3;
}

/// How a bitmap's bit s and the screen's bit v become one.
pub mod paint_mode {
    /// s
    pub const COPY: u8 = 0;
    /// s or v
    pub const OR: u8 = 1;
    /// not s
    pub const NOT: u8 = 2;
    /// s and v
    pub const AND: u8 = 3;
    /// s xor v
    pub const XOR: u8 = 4;
}

/// What a flush does to the picture.
pub mod screen_mode {
    /// It clears the screen first.
    pub const TEXT: u8 = 0;
    /// The picture stays under the glyphs.
    pub const GRAPH: u8 = 1;
}

/// How text is printed.
pub mod print_mode {
    /// Set pixels on clear ones.
    pub const NORMAL: u8 = 0;
    /// Clear pixels on set ones.
    pub const INVERSE: u8 = 1;
    /// As inverse; asked for while inverse it is normal.
    pub const FLASH: u8 = 2;
}

/// The cursor that is shown.
pub mod cursor {
    /// None.
    pub const NONE: u8 = 0;
    /// Over one cell.
    pub const HALF: u8 = 1;
    /// Over two cells.
    pub const FULL: u8 = 2;
}

/// The registers of a glass controller.
pub mod register {
    /// The last command.
    pub const COMMAND: u8 = 0;
    /// The line that is written.
    pub const LINE: u8 = 1;
    /// The byte of the line that data goes to next.
    pub const FIRST_BYTE: u8 = 2;
    /// How many data bytes are to come.
    pub const BYTE_COUNT: u8 = 3;
    /// The last data byte.
    pub const DATA: u8 = 4;
    /// The bits of [`status`](super::status).
    pub const STATUS: u8 = 5;
    /// 1 where the interrupt is enabled, else 0.
    pub const ENABLE: u8 = 6;
    /// A write clears all registers.
    pub const RESET: u8 = 7;
}

/// The commands of a glass controller.
pub mod command {
    /// Nothing.
    pub const NONE: u8 = 0;
    /// The panel becomes zeros.
    pub const CLEAR: u8 = 1;
    /// A line is started.
    pub const LINE: u8 = 2;
}

/// The bits of its status.
pub mod status {
    /// A line is being written.
    pub const BUSY: u8 = 1;
    /// A line was finished while the interrupt was enabled.
    pub const INTERRUPT: u8 = 2;
}
