//! The grammar of scripts: lines, and the form that a line holds.

use super::SENT_TO;
use calls::Call;

/// The modes in the order of their numbers.
const MODES: [&[u8]; 4] = [b"clear", b"or", b"xor", b"unknown"];

/// The lines without their newlines. The last one may lack its newline; nothing after the last
/// newline is no line.
pub fn lines(script: &[u8]) -> Vec<&[u8]> {
    let mut lines: Vec<&[u8]> = script.split(|byte| *byte == b'\n').collect();
    if lines.last().is_some_and(|line| line.is_empty()) {
        lines.pop();
    }
    lines
}

/// The call that the line names, if it is readable.
pub fn form(line: &[u8]) -> Option<Call> {
    let inner = bracketed(line)?;
    let words: Vec<&[u8]> = inner.split(|byte| *byte == b' ').collect();
    match words[..] {
        [b"send"] => Some(Call::Send { number: SENT_TO }),
        [b"poke", address, byte] => {
            Some(Call::WriteByte { address: number(address, 65_535)? as u16, byte: byte_number(byte)? })
        }
        [b"point", x, y, word] => {
            let (x, y) = pair(x, y)?;
            Some(Call::DrawPoint { x, y, mode: mode(word)? })
        }
        [b"line", x1, y1, x2, y2, word] => {
            let ((x1, y1), (x2, y2)) = (pair(x1, y1)?, pair(x2, y2)?);
            Some(Call::DrawLine { x1, y1, x2, y2, mode: mode(word)? })
        }
        _ => None,
    }
}

fn bracketed(bytes: &[u8]) -> Option<&[u8]> {
    bytes.strip_prefix(b"(")?.strip_suffix(b")")
}

/// The words `(x` and `y)`.
fn pair(x: &[u8], y: &[u8]) -> Option<(u8, u8)> {
    Some((byte_number(x.strip_prefix(b"(")?)?, byte_number(y.strip_suffix(b")")?)?))
}

fn byte_number(word: &[u8]) -> Option<u8> {
    number(word, 255).map(|value| value as u8)
}

/// Decimal digits without needless zeros, up to a limit.
fn number(word: &[u8], limit: u64) -> Option<u64> {
    let needless_zero = word.len() > 1 && word[0] == b'0';
    let too_long = word.len() > limit.to_string().len();
    if word.is_empty() || needless_zero || too_long || !word.iter().all(u8::is_ascii_digit) {
        return None;
    }
    let value = word.iter().fold(0, |value, digit| value * 10 + (digit - b'0') as u64);
    (value <= limit).then_some(value)
}

fn mode(word: &[u8]) -> Option<u8> {
    MODES.iter().position(|name| *name == word).map(|mode| mode as u8)
}
