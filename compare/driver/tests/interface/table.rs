//! The table of calls of docs/CALLS.md.

use crate::function::{Function, Kind, Parameter, names_that_differ, shown};

/// What the table says of a call.
#[derive(Debug, Clone, PartialEq, Eq)]
pub struct Row {
    pub name: String,
    pub lent: Vec<Parameter>,
    pub told: Vec<Parameter>,
    pub answers: Vec<String>,
}

/// The rows of the table whose columns are named so, one for each call of a line.
pub fn rows(text: &str) -> Result<Vec<Row>, String> {
    let mut lines = text.lines().map(cells).skip_while(|cells| !is_head(cells));
    let head = lines.next().ok_or("there is no table with the columns call, lent, told, answers")?;
    let column = |name: &str| head.iter().position(|cell| cell == name).unwrap_or(0);
    let columns = ["call", "lent", "told", "answers"].map(column);
    let mut rows = vec![];
    for cells in lines.skip(1).take_while(|cells| cells.len() == head.len()) {
        let [calls, lent, told, answers] = columns.map(|column| cells[column].as_str());
        let calls = items(calls);
        for (place, name) in calls.iter().enumerate() {
            let row = Row {
                name: name.clone(),
                lent: lent_of(lent),
                told: told_of(told, place, calls.len()).map_err(|error| format!("{name}: {error}"))?,
                answers: items(answers),
            };
            rows.push(row);
        }
    }
    Ok(rows)
}

fn is_head(cells: &[String]) -> bool {
    ["call", "lent", "told", "answers"].iter().all(|name| cells.iter().any(|cell| cell == name))
}

/// The cells of a line of a table, without backticks; none where it is no such line.
fn cells(line: &str) -> Vec<String> {
    let Some(inside) = line.trim().strip_prefix('|').and_then(|line| line.strip_suffix('|')) else {
        return vec![];
    };
    inside.split('|').map(|cell| cell.replace('`', "").trim().to_string()).collect()
}

fn items(cell: &str) -> Vec<String> {
    cell.split(',').map(|item| item.trim().to_string()).filter(|item| !item.is_empty()).collect()
}

fn lent_of(cell: &str) -> Vec<Parameter> {
    let lent = items(cell).into_iter().map(|item| match item.strip_prefix("const ") {
        Some(name) => Parameter::new(&name.replace(' ', "_"), Kind::ConstSlice),
        None => Parameter::new(&item.replace(' ', "_"), Kind::MutSlice),
    });
    lent.collect()
}

/// The numbers that the call of this place in its line is told: `a or b` is a number of its own for
/// each call of the line, `keys0-7` are eight.
fn told_of(cell: &str, place: usize, calls: usize) -> Result<Vec<Parameter>, String> {
    let mut told = vec![];
    for item in items(cell) {
        let (names, kind) = item.split_once(" (").unwrap_or((&item, "u8)"));
        let kind = kind_of(kind)?;
        let choices: Vec<&str> = names.split(" or ").collect();
        if choices.len() != 1 && choices.len() != calls {
            return Err(format!("{names}: {} names for {calls} calls", choices.len()));
        }
        let name = choices[place % choices.len()].replace(' ', "_");
        told.extend(counted(&name).iter().map(|name| Parameter::new(name, kind)));
    }
    Ok(told)
}

/// `keys0-7` is keys0, .., keys7.
fn counted(name: &str) -> Vec<String> {
    let last = name.split_once('-').and_then(|(first, last)| Some((first, last.parse::<usize>().ok()?)));
    let Some((first, last)) = last else { return vec![name.to_string()] };
    let word = first.trim_end_matches(|sign: char| sign.is_ascii_digit());
    let from: usize = first[word.len()..].parse().unwrap_or(0);
    (from..=last).map(|number| format!("{word}{number}")).collect()
}

fn kind_of(text: &str) -> Result<Kind, String> {
    match text {
        "u8)" => Ok(Kind::U8),
        "u16)" => Ok(Kind::U16),
        "u32)" => Ok(Kind::U32),
        "i32)" => Ok(Kind::I32),
        _ => Err(format!("({text} is no kind of a number")),
    }
}

/// In which ways the table is not that of the exported functions.
pub fn differences(exported: &[Function], rows: &[Row]) -> Vec<String> {
    let mut found = names_that_differ(exported, rows, |row| &row.name);
    for function in exported {
        let Some(row) = rows.iter().find(|row| row.name == function.name) else { continue };
        let name = &function.name;
        let (lent, told): (Vec<Parameter>, Vec<Parameter>) =
            function.parameters.iter().cloned().partition(Parameter::is_slice);
        if lent != row.lent {
            found.push(format!("{name} is lent {}; here {}", shown(&lent), shown(&row.lent)));
        }
        if told != row.told {
            found.push(format!("{name} is told {}; here {}", shown(&told), shown(&row.told)));
        }
        let answers: Vec<&String> = function.answers.iter().map(|answer| &answer.name).collect();
        if answers != row.answers.iter().collect::<Vec<_>>() {
            found.push(format!("{name} answers {answers:?}; here {:?}", row.answers));
        }
    }
    found
}
