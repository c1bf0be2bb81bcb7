//! The prototypes of the C header.

use crate::function::{Function, InC, Kind, Parameter, joined};
use crate::tokens::{bracketed, parts, tokens, without_comments};

/// The functions whose names start with `caption_`, and end as a prototype does.
pub fn prototypes(text: &str) -> Result<Vec<Function>, String> {
    let tokens = tokens_of(text);
    let mut functions = vec![];
    for name in 1..tokens.len().saturating_sub(1) {
        if !tokens[name].starts_with("caption_") || tokens[name + 1] != "(" {
            continue;
        }
        let (inside, behind) = bracketed(&tokens, name + 1)?;
        if tokens.get(behind).is_some_and(|sign| sign == ";") {
            let called = &tokens[name];
            let parameters = parameters(inside).map_err(|error| format!("{called}: {error}"))?;
            let answers = answers(&tokens, &tokens[name - 1])?;
            functions.push(Function { name: called.clone(), parameters, answers });
        }
    }
    Ok(functions)
}

pub fn tokens_of(text: &str) -> Vec<String> {
    tokens(&without_preprocessor(&without_comments(text)))
}

/// Lines that start with #, with those that they go on in, are left out.
fn without_preprocessor(text: &str) -> String {
    let joined = text.replace("\\\n", " ");
    let lines = joined.lines().filter(|line| !line.trim_start().starts_with('#'));
    lines.collect::<Vec<_>>().join("\n")
}

fn parameters(inside: &[String]) -> Result<Vec<Parameter>, String> {
    let in_c: Result<Vec<_>, String> = parts(inside).into_iter().map(parameter).collect();
    joined(in_c?)
}

fn parameter(part: &[String]) -> Result<(String, InC), String> {
    let words: Vec<&str> = part.iter().map(String::as_str).collect();
    match words[..] {
        ["const", "uint8_t", "*", name] => Ok((name.to_string(), InC::ConstPointer)),
        ["uint8_t", "*", name] => Ok((name.to_string(), InC::MutPointer)),
        ["size_t", name] => Ok((name.to_string(), InC::Length)),
        [kind, name] => Ok((name.to_string(), InC::Number(number(kind)?))),
        _ => Err(format!("no parameter that is known: {words:?}")),
    }
}

fn number(word: &str) -> Result<Kind, String> {
    match word {
        "uint8_t" => Ok(Kind::U8),
        "uint16_t" => Ok(Kind::U16),
        "uint32_t" => Ok(Kind::U32),
        "int32_t" => Ok(Kind::I32),
        _ => Err(format!("no kind that is known: {word}")),
    }
}

/// A number is a code; else the fields of `typedef struct { .. } result;`.
fn answers(tokens: &[String], result: &str) -> Result<Vec<Parameter>, String> {
    if result == "uint32_t" {
        return Ok(vec![Parameter::new("code", Kind::U32)]);
    }
    for open in (0..tokens.len()).filter(|place| tokens[*place] == "{") {
        let (inside, behind) = bracketed(tokens, open)?;
        if tokens.get(behind).is_some_and(|name| name == result) {
            return inside.split(|token| token == ";").filter(|line| !line.is_empty()).map(fields).try_fold(
                vec![],
                |mut all, some| {
                    all.extend(some?);
                    Ok(all)
                },
            );
        }
    }
    Err(format!("{result} is no struct that is defined"))
}

/// The fields of one line: a kind, then names.
fn fields(line: &[String]) -> Result<Vec<Parameter>, String> {
    let kind = number(&line[0])?;
    parts(&line[1..])
        .into_iter()
        .map(|part| match part {
            [name] => Ok(Parameter::new(name, kind)),
            other => Err(format!("no field: {other:?}")),
        })
        .collect()
}

#[test]
fn comments_and_line_ends_stand_anywhere() {
    let text = "/* a (comment); */
        #define CAPTION_TWICE(a) \\
            caption_none(a); caption_none(a)
        typedef struct { uint32_t code; /* 0: done; */ uint32_t value; } caption_value;
        caption_value /* its code, and the value */
        caption_one(const uint8_t *record, // 230 bytes; (all of it)
                    size_t record_len /* 230, */,
                    int32_t
                    x);";
    let record = Parameter::new("record", Kind::ConstSlice);
    let one = Function {
        name: "caption_one".to_string(),
        parameters: vec![record, Parameter::new("x", Kind::I32)],
        answers: vec![Parameter::new("code", Kind::U32), Parameter::new("value", Kind::U32)],
    };
    assert_eq!(prototypes(text), Ok(vec![one]));
}
