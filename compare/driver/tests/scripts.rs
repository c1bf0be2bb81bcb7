//! Faulty script programs are found, and each is shown with a short script. A faulty program here
//! is the model with its script or its printed text spoiled.

use driver::scripts::{self, Printed, Scripts, Trial};
use model::run_script;
use std::path::Path;

const SCRIPTS: Scripts = Scripts { count: 1_000, seed: 1 };

/// The program is found to differ, by this script.
fn assert_found(program: impl Fn(&Trial) -> Printed, shortest: impl AsRef<[u8]>) {
    let trial = SCRIPTS.find(program).expect("the fault is found");
    let shown = trial.script.escape_ascii();
    assert_eq!(trial.script, shortest.as_ref(), "{shown}");
}

/// The fault of a program that takes the script for another one.
fn assert_misreading_found(misread: impl Fn(&[u8]) -> Vec<u8>, shortest: impl AsRef<[u8]>) {
    assert_found(|trial| Ok(run_script(&misread(&trial.script))), shortest);
}

fn without(script: &[u8], byte: u8) -> Vec<u8> {
    script.iter().copied().filter(|other| *other != byte).collect()
}

#[test]
fn the_model_itself_is_no_fault() {
    assert!(SCRIPTS.find(|trial| Ok(run_script(&trial.script))).is_none());
    let program = Path::new(env!("CARGO_BIN_EXE_script-model"));
    assert!(Scripts { count: 300, seed: 1 }.find(|trial| scripts::run(program, trial)).is_none());
}

#[test]
fn programs_that_fail() {
    for program in ["/bin/false", "/bin/true", "/bin/cat", "/no/such/program"] {
        assert_found(|trial| scripts::run(Path::new(program), trial), "");
    }
}

#[test]
fn other_bytes_skipped() {
    assert_misreading_found(|script| without(script, b'\r'), "\r");
    assert_misreading_found(|script| without(script, b'\t'), "\t");
    assert_misreading_found(|script| without(script, 0x80), [0x80]);
}

#[test]
fn a_last_line_without_newline_left_out() {
    let cut = |script: &[u8]| {
        let end = script.iter().rposition(|byte| *byte == b'\n').map_or(0, |place| place + 1);
        script[..end].to_vec()
    };
    assert_found(|trial| Ok(run_script(if trial.script.len() > 4_096 { &trial.script } else { &[] })), "\n");
    assert_misreading_found(cut, " ");
}

#[test]
fn capitals_taken_for_small_letters() {
    let trial = SCRIPTS.find(|trial| Ok(run_script(&trial.script.to_ascii_lowercase())));
    assert!(trial.expect("the fault is found").script.len() <= "(Line (0 0) (0 0) unknown)".len());
}

#[test]
fn one_byte_too_few_or_too_many_taken() {
    let limit = |most: usize| {
        move |trial: &Trial| {
            let script = &trial.script[..trial.script.len().min(4_096)];
            Ok(if trial.script.len() > most { b"(long)\n".to_vec() } else { run_script(script) })
        }
    };
    for most in [4_095, 4_097] {
        let trial = SCRIPTS.find(limit(most)).expect("the fault is found");
        assert_eq!(trial.script.len(), most.max(4_096));
    }
}

#[test]
fn only_the_first_piece_read() {
    let trial = SCRIPTS.find(|trial| {
        let first = trial.piece.unwrap_or(trial.script.len()).min(trial.script.len());
        Ok(run_script(&trial.script[..first]))
    });
    let trial = trial.expect("the fault is found");
    assert!(trial.piece.is_some() && trial.script.len() <= 4_097, "{trial}");
}

#[test]
fn idle_too_early() {
    let early = |trial: &Trial| {
        let printed = String::from_utf8(run_script(&trial.script)).expect("it is ASCII");
        Ok(printed.replace("(sent 79 0 160)", "(idle)").into_bytes())
    };
    assert_found(early, "(send)\n".repeat(80).trim_end());
}

/// A program that sends to panel 0 and counts the pixels and lines of one that is sent nothing.
#[test]
fn another_panel_counted() {
    let other = |trial: &Trial| {
        let printed = String::from_utf8(run_script(&trial.script)).expect("it is ASCII");
        let Some((lines, _)) = printed.rsplit_once("(end ") else { return Ok(printed.into_bytes()) };
        let drawing = trial.script.split(|byte| *byte == b'\n').filter(|line| *line != b"(send)");
        let unsent = run_script(&drawing.collect::<Vec<_>>().join(&b'\n'));
        let end = String::from_utf8(unsent).expect("it is ASCII").lines().last().map(String::from);
        Ok(format!("{lines}{}\n", end.expect("a last line")).into_bytes())
    };
    assert_found(other, "(send)");
}
