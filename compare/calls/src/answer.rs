use caption_sys::numbers::code;

/// The refusals of document 01's table, and of the change requests.
#[derive(Debug, Clone, Copy, PartialEq, Eq)]
#[repr(u32)]
pub enum Refusal {
    Lent = code::LENT,
    State = code::STATE,
    Window = code::WINDOW,
    Value = code::VALUE,
    Source = code::SOURCE,
    Radius = code::RADIUS,
    Glyph = code::GLYPH,
    /// It is in the definition of ellipses, and no call answers it.
    Endless = 8,
    Panel = code::PANEL,
    Register = code::REGISTER,
}

/// What a call answers: its code, then the other numbers of its result, zero where it has none.
/// `Value` fills one of them, `Area` left, top, right, bottom, `Sent` sent, line, left, right.
#[derive(Debug, Clone, Copy, PartialEq, Eq)]
pub struct Answer {
    pub code: u32,
    pub numbers: [u32; 4],
}

impl Answer {
    pub fn done(numbers: [u32; 4]) -> Self {
        Self { code: code::DONE, numbers }
    }

    pub fn refused(refusal: Refusal) -> Self {
        Self { code: refusal as u32, numbers: [0; 4] }
    }

    pub fn accepted(&self) -> bool {
        self.code == code::DONE
    }
}
