//! The words and signs of C, Rust and Rattle text, as far as declarations need them.

/// Words, strings in double quotes, and single signs. Comments and the names of lifetimes are left
/// out.
pub fn tokens(text: &str) -> Vec<String> {
    let text = without_comments(text);
    let mut rest = text.trim_start();
    let mut tokens = vec![];
    while let Some(first) = rest.chars().next() {
        let len = match first {
            '"' => 2 + rest[1..].find('"').unwrap_or(rest.len() - 2),
            '\'' => 1 + word_len(&rest[1..]),
            _ => word_len(rest).max(first.len_utf8()),
        };
        if first != '\'' {
            tokens.push(rest[..len].to_string());
        }
        rest = rest[len..].trim_start();
    }
    tokens
}

fn word_len(text: &str) -> usize {
    text.find(|sign: char| !sign.is_ascii_alphanumeric() && sign != '_').unwrap_or(text.len())
}

pub fn without_comments(text: &str) -> String {
    let mut rest = text;
    let mut kept = String::new();
    while let Some(start) = rest.find("//").into_iter().chain(rest.find("/*")).min() {
        kept = kept + &rest[..start] + " ";
        let comment = &rest[start..];
        let end = if comment.starts_with("//") {
            comment.find('\n')
        } else {
            comment.find("*/").map(|end| end + 2)
        };
        rest = &comment[end.unwrap_or(comment.len())..];
    }
    kept + rest
}

/// The place of the first token behind this sequence, from a place on.
pub fn after(tokens: &[String], from: usize, sequence: &[&str]) -> Option<usize> {
    let found = tokens[from..].windows(sequence.len()).position(|part| part == sequence)?;
    Some(from + found + sequence.len())
}

/// The tokens between a bracket at this place and the one that closes it, and the place behind.
pub fn bracketed(tokens: &[String], open: usize) -> Result<(&[String], usize), String> {
    let mut depth = 0;
    for (place, token) in tokens.iter().enumerate().skip(open) {
        match token.as_str() {
            "(" | "[" | "{" => depth += 1,
            ")" | "]" | "}" => depth -= 1,
            _ => {}
        }
        if depth == 0 {
            return Ok((&tokens[open + 1..place], place + 1));
        }
    }
    Err(format!("a bracket does not close: {:?}", tokens.get(open)))
}

/// The parts between commas; a last empty one is none.
pub fn parts(tokens: &[String]) -> Vec<&[String]> {
    let mut parts: Vec<&[String]> = tokens.split(|token| token == ",").collect();
    if parts.last().is_some_and(|part| part.is_empty()) {
        parts.pop();
    }
    parts
}
