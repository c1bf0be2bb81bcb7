//! What is compared of an exported function, and of its declarations.

use std::fmt;

#[derive(Debug, Clone, Copy, PartialEq, Eq)]
pub enum Kind {
    U8,
    U16,
    U32,
    I32,
    /// A slice that is only read, and one that may be written. In C: a pointer, then a length.
    ConstSlice,
    MutSlice,
}

#[derive(Debug, Clone, PartialEq, Eq)]
pub struct Parameter {
    pub name: String,
    pub kind: Kind,
}

#[derive(Debug, Clone, PartialEq, Eq)]
pub struct Function {
    pub name: String,
    pub parameters: Vec<Parameter>,
    /// The numbers of the result in their order: a single one is the code.
    pub answers: Vec<Parameter>,
}

impl Parameter {
    pub fn new(name: &str, kind: Kind) -> Self {
        Self { name: name.to_string(), kind }
    }

    pub fn is_slice(&self) -> bool {
        matches!(self.kind, Kind::ConstSlice | Kind::MutSlice)
    }
}

/// As Rattle writes it.
impl fmt::Display for Parameter {
    fn fmt(&self, f: &mut fmt::Formatter) -> fmt::Result {
        let kind = match self.kind {
            Kind::U8 => "u8",
            Kind::U16 => "u16",
            Kind::U32 => "u32",
            Kind::I32 => "i32",
            Kind::ConstSlice => "&[u8]",
            Kind::MutSlice => "&mut [u8]",
        };
        write!(f, "{}: {kind}", self.name)
    }
}

pub fn shown(parameters: &[Parameter]) -> String {
    let all: Vec<String> = parameters.iter().map(Parameter::to_string).collect();
    format!("({})", all.join(", "))
}

/// A parameter as C has it.
#[derive(Debug, Clone, Copy, PartialEq, Eq)]
pub enum InC {
    ConstPointer,
    MutPointer,
    Length,
    Number(Kind),
}

/// Pointers joined with the lengths after them.
pub fn joined(in_c: Vec<(String, InC)>) -> Result<Vec<Parameter>, String> {
    let mut parameters = vec![];
    let mut rest = in_c.into_iter();
    while let Some((name, kind)) = rest.next() {
        let kind = match kind {
            InC::Number(kind) => kind,
            InC::Length => return Err(format!("{name} is the length of no pointer")),
            InC::ConstPointer | InC::MutPointer => {
                if rest.next() != Some((format!("{name}_len"), InC::Length)) {
                    return Err(format!("after the pointer {name} comes no length {name}_len"));
                }
                if kind == InC::ConstPointer { Kind::ConstSlice } else { Kind::MutSlice }
            }
        };
        parameters.push(Parameter { name, kind });
    }
    Ok(parameters)
}

/// In which ways these declarations are not those of the exported functions.
pub fn differences(exported: &[Function], declared: &[Function]) -> Vec<String> {
    let mut found = names_that_differ(exported, declared, |function| &function.name);
    for function in exported {
        let Some(other) = declared.iter().find(|other| other.name == function.name) else { continue };
        let name = &function.name;
        if function.parameters != other.parameters {
            let (right, here) = (shown(&function.parameters), shown(&other.parameters));
            found.push(format!("{name} takes {right}; here {here}"));
        }
        if function.answers != other.answers {
            let (right, here) = (shown(&function.answers), shown(&other.answers));
            found.push(format!("{name} answers {right}; here {here}"));
        }
    }
    found
}

/// The names that only one side has, or one side twice.
pub fn names_that_differ<T>(exported: &[Function], declared: &[T], name: fn(&T) -> &String) -> Vec<String> {
    let exported: Vec<&String> = exported.iter().map(|function| &function.name).collect();
    let declared: Vec<&String> = declared.iter().map(name).collect();
    let times = |names: &[&String], name: &String| names.iter().filter(|other| **other == name).count();
    let mut found = vec![];
    for name in exported.iter().chain(&declared) {
        let (here, there) = (times(&exported, name), times(&declared, name));
        if here != 1 || there != 1 {
            found.push(format!("{name} is exported {here} times, and here {there} times"));
        }
    }
    found
}
