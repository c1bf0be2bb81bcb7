//! Scripts: a form a line.

use caption::{DrawMode, Fill, PaintMode, PrintMode, ScreenMode};

/// What a line asks for.
#[derive(Debug, Clone, PartialEq, Eq)]
pub enum Form {
    Call(Call),
    /// So many sends to a panel, fewer where it is idle before.
    Send {
        number: u8,
        times: u8,
    },
}

/// A call that is no send.
#[derive(Debug, Clone, PartialEq, Eq)]
pub enum Call {
    Point { x: u8, y: u8, mode: DrawMode },
    Line { x1: u8, y1: u8, x2: u8, y2: u8, mode: DrawMode },
    Box { x1: u8, y1: u8, x2: u8, y2: u8, fill: Fill, mode: DrawMode },
    Circle { x: u8, y: u8, r: u8, fill: Fill, mode: DrawMode },
    Ellipse { x: u8, y: u8, rx: u8, ry: u8, fill: Fill, mode: DrawMode },
    Paint { address: u16, x: u8, y: u8, width: u8, height: u8, mode: PaintMode },
    Poke { address: u16, byte: u8 },
    Load { address: u16, bytes: Vec<u8> },
    Print { text: String },
    Newline,
    Cls,
    Flush,
    Row { row: u8 },
    Column { column: u8 },
    Screen { mode: ScreenMode },
    Style { mode: PrintMode },
    Blink,
    ClearCursor,
    Dirty,
    Reset,
}

/// The form of a line; none where it is no form.
pub fn form(line: &str) -> Option<Form> {
    let words = words(line)?;
    let words: Vec<&str> = words.iter().map(String::as_str).collect();
    let words = words.strip_prefix(&["("])?.strip_suffix(&[")"])?;
    send(words).or_else(|| drawing(words).or_else(|| other(words)).map(Form::Call))
}

fn send(words: &[&str]) -> Option<Form> {
    let [number, times] = match *words {
        ["send"] => [0, 1],
        ["send", number] => [byte(number)?, 1],
        ["send", number, times] => [byte(number)?, byte(times)?],
        _ => return None,
    };
    Some(Form::Send { number, times })
}

fn drawing(words: &[&str]) -> Option<Call> {
    Some(match *words {
        ["point", "(", x, y, ")", mode] => Call::Point { x: byte(x)?, y: byte(y)?, mode: draw_mode(mode)? },
        ["line", "(", x1, y1, ")", "(", x2, y2, ")", mode] => {
            Call::Line { x1: byte(x1)?, y1: byte(y1)?, x2: byte(x2)?, y2: byte(y2)?, mode: draw_mode(mode)? }
        }
        ["box", "(", x1, y1, ")", "(", x2, y2, ")", filled, mode] => {
            let [x1, y1, x2, y2] = [byte(x1)?, byte(y1)?, byte(x2)?, byte(y2)?];
            Call::Box { x1, y1, x2, y2, fill: fill(filled)?, mode: draw_mode(mode)? }
        }
        ["circle", "(", x, y, ")", r, filled, mode] => {
            Call::Circle { x: byte(x)?, y: byte(y)?, r: byte(r)?, fill: fill(filled)?, mode: draw_mode(mode)? }
        }
        ["ellipse", "(", x, y, ")", "(", rx, ry, ")", filled, mode] => {
            let [x, y, rx, ry] = [byte(x)?, byte(y)?, byte(rx)?, byte(ry)?];
            Call::Ellipse { x, y, rx, ry, fill: fill(filled)?, mode: draw_mode(mode)? }
        }
        ["paint", address, "(", x, y, ")", "(", width, height, ")", mode] => {
            let [x, y, width, height] = [byte(x)?, byte(y)?, byte(width)?, byte(height)?];
            Call::Paint { address: number(address)?, x, y, width, height, mode: paint_mode(mode)? }
        }
        _ => return None,
    })
}

/// Text, memory, and what is asked of the whole screen.
fn other(words: &[&str]) -> Option<Call> {
    Some(match *words {
        ["poke", address, value] => Call::Poke { address: number(address)?, byte: byte(value)? },
        ["load", address, ref bytes @ ..] => {
            let bytes: Option<Vec<u8>> = bytes.iter().map(|word| byte(word)).collect();
            Call::Load { address: number(address)?, bytes: bytes? }
        }
        ["print", text] => Call::Print { text: text.strip_prefix('"')?.to_string() },
        ["newline"] => Call::Newline,
        ["cls"] => Call::Cls,
        ["flush"] => Call::Flush,
        ["row", row] => Call::Row { row: byte(row)? },
        ["column", column] => Call::Column { column: byte(column)? },
        ["screen", "text"] => Call::Screen { mode: ScreenMode::Text },
        ["screen", "graph"] => Call::Screen { mode: ScreenMode::Graph },
        ["style", "normal"] => Call::Style { mode: PrintMode::Normal },
        ["style", "inverse"] => Call::Style { mode: PrintMode::Inverse },
        ["style", "flash"] => Call::Style { mode: PrintMode::Flash },
        ["blink"] => Call::Blink,
        ["clear-cursor"] => Call::ClearCursor,
        ["dirty"] => Call::Dirty,
        ["reset"] => Call::Reset,
        _ => return None,
    })
}

/// Brackets, words between spaces, and texts between quotes, which keep the first quote. None where a text does not end.
fn words(line: &str) -> Option<Vec<String>> {
    let mut words = vec![];
    let mut rest = line;
    while let Some(first) = rest.chars().next() {
        let length = match first {
            ' ' => 0,
            '(' | ')' => 1,
            '"' => 1 + rest[1..].find('"')?,
            _ => rest.find([' ', '(', ')', '"']).unwrap_or(rest.len()),
        };
        if first != ' ' {
            words.push(rest[..length].to_string());
        }
        let behind = if first == '"' || first == ' ' { length + 1 } else { length };
        rest = &rest[behind..];
    }
    Some(words)
}

/// One to five digits.
fn number(word: &str) -> Option<u16> {
    let digits = (1..=5).contains(&word.len()) && word.bytes().all(|byte| byte.is_ascii_digit());
    if digits { word.parse().ok() } else { None }
}

fn byte(word: &str) -> Option<u8> {
    number(word)?.try_into().ok()
}

fn fill(word: &str) -> Option<Fill> {
    match number(word)? {
        0 => Some(Fill::Outline),
        1 => Some(Fill::Filled),
        _ => None,
    }
}

fn draw_mode(word: &str) -> Option<DrawMode> {
    match word {
        "clear" => Some(DrawMode::Clear),
        "or" => Some(DrawMode::Or),
        "xor" => Some(DrawMode::Xor),
        "unknown" => Some(DrawMode::Unknown),
        _ => None,
    }
}

fn paint_mode(word: &str) -> Option<PaintMode> {
    match word {
        "copy" => Some(PaintMode::Copy),
        "or" => Some(PaintMode::Or),
        "not" => Some(PaintMode::Not),
        "and" => Some(PaintMode::And),
        "xor" => Some(PaintMode::Xor),
        _ => None,
    }
}

#[test]
fn forms_are_read() {
    let call = |line| match form(line) {
        Some(Form::Call(call)) => call,
        other => panic!("{line}: {other:?}"),
    };
    assert_eq!(call("(point (3 0) or)"), Call::Point { x: 3, y: 0, mode: DrawMode::Or });
    assert_eq!(call("(print \"a (b) c\")"), Call::Print { text: "a (b) c".to_string() });
    assert_eq!(call("(load 8448 240 9)"), Call::Load { address: 8448, bytes: vec![240, 9] });
    let ellipse = Call::Ellipse { x: 9, y: 9, rx: 4, ry: 2, fill: Fill::Filled, mode: DrawMode::Xor };
    assert_eq!(call("(ellipse (9 9) (4 2) 1 xor)"), ellipse);
    let paint = Call::Paint { address: 4096, x: 1, y: 2, width: 8, height: 9, mode: PaintMode::Copy };
    assert_eq!(call("(paint 4096 (1 2) (8 9) copy)"), paint);
    assert_eq!(form("(send)"), Some(Form::Send { number: 0, times: 1 }));
    assert_eq!(form("( send  3 95 )"), Some(Form::Send { number: 3, times: 95 }));
}

#[test]
fn other_lines_are_none() {
    let lines = [
        "",
        "(",
        ")",
        "()",
        "send",
        "(send",
        "(send 256)",
        "(point (3) or)",
        "(point (3 256) or)",
        "(point (3 0) not)",
        "(print \"a)",
        "(print a)",
        "(print)",
        "(box (1 2) (3 4) 2 or)",
        "(poke 65536 0)",
        "(poke 123456 0)",
        "(row -1)",
        "(send) (send)",
        "(send\t)",
        "(flush)\r",
        "(größe)",
    ];
    for line in lines {
        assert_eq!(form(line), None, "{line}");
    }
}
