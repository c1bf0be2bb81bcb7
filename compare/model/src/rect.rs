//! Rectangles and document 01's section "Marks". Right and bottom are not included.
//! An empty rectangle is `None`.

use calls::layout::{HEIGHT, WIDTH};

#[derive(Debug, Clone, Copy, PartialEq, Eq)]
pub struct Rect {
    pub left: usize,
    pub top: usize,
    pub right: usize,
    pub bottom: usize,
}

pub const WHOLE_SCREEN: Rect = Rect { left: 0, top: 0, right: WIDTH, bottom: HEIGHT };

impl Rect {
    pub fn new(left: usize, top: usize, right: usize, bottom: usize) -> Self {
        Self { left, top, right, bottom }
    }

    /// The one pixel (x, y).
    pub fn pixel(x: usize, y: usize) -> Self {
        Self::new(x, y, x + 1, y + 1)
    }

    pub fn contains(&self, other: &Rect) -> bool {
        self.left <= other.left
            && self.top <= other.top
            && other.right <= self.right
            && other.bottom <= self.bottom
    }

    /// Where lines are clamped, horizontal ones, boxes and filled ellipses draw at column 159 and row 79
    /// what lies beyond.
    pub fn lowered(self) -> Self {
        Self { left: self.left.min(WIDTH - 1), top: self.top.min(HEIGHT - 1), ..self }
    }

    pub fn clipped(self) -> Option<Self> {
        self.part_in(&WHOLE_SCREEN)
    }

    /// What of it lies in another one.
    pub fn part_in(self, other: &Rect) -> Option<Self> {
        let (left, top) = (self.left.max(other.left), self.top.max(other.top));
        let (right, bottom) = (self.right.min(other.right), self.bottom.min(other.bottom));
        (left < right && top < bottom).then_some(Self { left, top, right, bottom })
    }
}

/// Smallest left and top, largest right and bottom.
pub fn join(one: Option<Rect>, other: Option<Rect>) -> Option<Rect> {
    match (one, other) {
        (Some(a), Some(b)) => Some(Rect {
            left: a.left.min(b.left),
            top: a.top.min(b.top),
            right: a.right.max(b.right),
            bottom: a.bottom.max(b.bottom),
        }),
        (None, rect) | (rect, None) => rect,
    }
}
