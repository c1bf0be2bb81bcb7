//! Exported functions of Rattle sources, and the declarations of Rust: both have the form
//! `fn name(parameter: type, ..) -> type`, and structs of C for results.

use crate::function::{Function, InC, Kind, Parameter, joined};
use crate::tokens::{after, bracketed, parts, tokens};

/// The functions that Rattle sources export.
pub fn exported(text: &str) -> Result<Vec<Function>, String> {
    let tokens = tokens(text);
    let marks = tokens.iter().filter(|token| *token == "no_mangle").count();
    let mut functions = vec![];
    let mut place = 0;
    while let Some(name) = after(&tokens, place, &["pub", "extern", "\"C\"", "fn"]) {
        place = name;
        functions.push(function(&tokens, name, |parameters| {
            parameters.iter().map(|(name, kind)| slice_or_number(name, kind).map(with_full_name)).collect()
        })?);
    }
    let marked = ["#", "[", "unsafe", "(", "no_mangle", ")", "]", "pub", "extern", "\"C\"", "fn"];
    let both = tokens.windows(marked.len()).filter(|part| *part == marked).count();
    if both != marks || both != functions.len() {
        return Err(format!("{} functions, {marks} no_mangle, {both} with both", functions.len()));
    }
    Ok(functions)
}

/// The functions that Rust declares in its block of C functions.
pub fn declared(text: &str) -> Result<Vec<Function>, String> {
    let tokens = tokens(text);
    let block = after(&tokens, 0, &["extern", "\"C\""]).ok_or("there is no block of C functions")?;
    let (_, end) = bracketed(&tokens, block)?;
    let mut functions = vec![];
    let mut place = block;
    while let Some(name) = after(&tokens[..end], place, &["fn"]) {
        place = name;
        functions.push(function(&tokens, name, |parameters| {
            let in_c: Result<Vec<_>, String> = parameters
                .iter()
                .map(|(name, kind)| Ok((name.clone(), pointer_or_number(&tokens, kind)?)))
                .collect();
            joined(in_c?)
        })?);
    }
    Ok(functions)
}

/// Header, table and declarations have longer names for some parameters than the sources. `register` is a word
/// of C that names no parameter.
fn with_full_name(parameter: Parameter) -> Parameter {
    let name = match (parameter.name.as_str(), parameter.kind) {
        ("rec", _) => "record",
        ("bytes", _) => "text",
        ("list", _) => "extra_list",
        ("extra", _) => "extra_font",
        ("graphics", _) => "graphics_base",
        ("text", Kind::U16) => "text_base",
        ("register", _) => "register_number",
        (name, _) => name,
    };
    Parameter::new(name, parameter.kind)
}

/// Names with the tokens of their types.
type Typed<'a> = Vec<(String, &'a [String])>;

fn function(
    tokens: &[String],
    name: usize,
    read: impl Fn(&Typed) -> Result<Vec<Parameter>, String>,
) -> Result<Function, String> {
    let called = &tokens[name];
    let open = after(tokens, name, &["("]).ok_or("a function has no parameters")? - 1;
    let (inside, behind) = bracketed(tokens, open)?;
    let parameters = read(&typed(inside)?).map_err(|error| format!("{called}: {error}"))?;
    let answers = match tokens.get(behind..behind + 3) {
        Some([minus, more, result]) if minus == "-" && more == ">" => answers(tokens, result)?,
        _ => return Err(format!("{called} has no result")),
    };
    Ok(Function { name: called.clone(), parameters, answers })
}

fn typed(inside: &[String]) -> Result<Typed<'_>, String> {
    let typed = parts(inside).into_iter().map(|part| match part {
        [visible, name, colon, kind @ ..] if visible == "pub" && colon == ":" => Ok((name.clone(), kind)),
        [name, colon, kind @ ..] if colon == ":" => Ok((name.clone(), kind)),
        other => Err(format!("no parameter: {other:?}")),
    });
    typed.collect()
}

/// A number is a code; else the fields of a struct that is laid out as in C.
fn answers(tokens: &[String], result: &str) -> Result<Vec<Parameter>, String> {
    if result == "u32" {
        return Ok(vec![Parameter::new("code", Kind::U32)]);
    }
    let start = ["#", "[", "repr", "(", "C", ")", "]", "pub", "struct", result];
    let open = after(tokens, 0, &start).ok_or(format!("{result} is no struct of C"))?;
    let (inside, _) = bracketed(tokens, open)?;
    typed(inside)?.iter().map(|(name, kind)| slice_or_number(name, kind)).collect()
}

fn slice_or_number(name: &str, kind: &[String]) -> Result<Parameter, String> {
    let words: Vec<&str> = kind.iter().map(String::as_str).collect();
    let kind = match words[..] {
        ["&", "mut", "[", "u8", "]"] => Kind::MutSlice,
        ["&", "[", "u8", "]"] => Kind::ConstSlice,
        [word] => number(word)?,
        _ => return Err(format!("{name}: no kind that is known: {words:?}")),
    };
    Ok(Parameter::new(name, kind))
}

/// A type of Rust's declarations, where names may stand for pointers: `type Out = *mut u8;`.
fn pointer_or_number(tokens: &[String], kind: &[String]) -> Result<InC, String> {
    let words: Vec<&str> = kind.iter().map(String::as_str).collect();
    match words[..] {
        ["*", "mut", "u8"] => Ok(InC::MutPointer),
        ["*", "const", "u8"] => Ok(InC::ConstPointer),
        ["usize"] => Ok(InC::Length),
        [word] => match after(tokens, 0, &["type", word, "="]) {
            Some(place) => pointer_or_number(tokens, &tokens[place..place + 3]),
            None => Ok(InC::Number(number(word)?)),
        },
        _ => Err(format!("no kind that is known: {words:?}")),
    }
}

fn number(word: &str) -> Result<Kind, String> {
    match word {
        "u8" => Ok(Kind::U8),
        "u16" => Ok(Kind::U16),
        "u32" => Ok(Kind::U32),
        "i32" => Ok(Kind::I32),
        _ => Err(format!("no kind that is known: {word}")),
    }
}
