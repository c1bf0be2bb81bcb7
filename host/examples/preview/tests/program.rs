//! The program as it is called.

use std::path::{Path, PathBuf};
use std::process::{Command, Output, Stdio};
use std::{env, fs};

fn preview(arguments: &[&str]) -> Output {
    Command::new(env!("CARGO_BIN_EXE_preview")).args(arguments).stdin(Stdio::null()).output().expect("the program")
}

fn printed(output: &Output) -> String {
    String::from_utf8(output.stdout.clone()).expect("text")
}

/// Those lines that begin with a step's number: call, answer, what is left.
fn steps(output: &Output) -> Vec<String> {
    let begins = |line: &&str| line.get(..4).is_some_and(|number| number.trim().parse::<usize>().is_ok());
    let text = printed(output);
    text.lines().filter(begins).map(|line| line.split_whitespace().collect::<Vec<_>>().join(" ")).collect()
}

fn example(name: &str) -> String {
    Path::new(env!("CARGO_MANIFEST_DIR")).join("../../../examples").join(name).display().to_string()
}

/// A folder of its own for each test.
fn folder(name: &str) -> PathBuf {
    let folder = Path::new(env!("CARGO_TARGET_TMPDIR")).join(name);
    let _ = fs::remove_dir_all(&folder);
    fs::create_dir_all(&folder).expect("a folder");
    folder
}

#[test]
fn examples_answer_what_the_script_program_prints() {
    let ends = [
        ("point.script", "0 differ", "79 left"),
        ("send.script", "1 differ", "80 left"),
        ("bands.script", "2 differ", "80 left"),
    ];
    for (name, differ, left) in ends {
        let output = preview(&[&example(name), "--columns", "160"]);
        assert_eq!(output.status.code(), Some(0), "{name}");
        let last = steps(&output).pop().expect("a step");
        assert!(last.contains(differ) && last.contains(left), "{name}: {last}");
    }
    let sent = steps(&preview(&[&example("send.script")]));
    assert_eq!(sent[1], "1 (send 0) (sent 0 0 160) panel 0: 79 left, 1 sent, 0 differ");
    assert_eq!(sent[2], "2 (point (3 0) or) (done) panel 0: 80 left, 1 sent, 1 differ");
}

#[test]
fn lines_that_are_no_form_are_named() {
    let output = preview(&[&example("answers.script")]);
    assert_eq!(output.status.code(), Some(1));
    let errors = String::from_utf8(output.stderr.clone()).unwrap();
    assert!(errors.trim_end().ends_with("lines that are no form: 12, 14"), "{errors}");
    assert!(printed(&output).contains("(bad 12)"));
}

#[test]
fn the_built_in_cue_ends_level() {
    let output = preview(&[]);
    assert_eq!(output.status.code(), Some(0));
    let last = steps(&output).pop().expect("a step");
    assert!(last.contains("(idle)") && last.contains("panel 0: 0 left") && last.ends_with(" 0 differ"), "{last}");
}

#[test]
fn driven_panels_look_as_direct_ones() {
    let direct = preview(&["--panel", "all"]);
    let driven = preview(&["--panel", "all", "--driven", "0", "--driven", "2"]);
    assert_eq!(direct.stdout, driven.stdout);
}

#[test]
fn pictures_stand_side_by_side_where_there_is_room() {
    let wide = printed(&preview(&["--step", "4", "--colour", "always"]));
    assert!(wide.lines().any(|line| line.starts_with("screen") && line.ends_with("panel 0")));
    assert!(wide.contains("\x1b[38;5;"));
    let narrow = printed(&preview(&["--step", "4", "--columns", "160", "--colour", "never"]));
    assert!(narrow.lines().any(|line| line == "screen") && narrow.lines().any(|line| line == "differs on panel 0"));
    assert!(!narrow.contains('\x1b') && narrow.contains('█'));
    let words = printed(&preview(&["--step", "4", "--columns", "159", "--colour", "never"]));
    assert!(!words.contains('█') && words.contains("owed in row 1: lines 16 to 31"));
}

#[test]
fn one_step_alone() {
    let output = preview(&["--step", "4"]);
    assert_eq!(steps(&output).len(), 1);
    assert!(steps(&output)[0].starts_with("4 (flush) (done)"));
}

#[test]
fn files_have_the_pictures() {
    let folder = folder("files");
    let (pbm, png, html) = (folder.join("pbm"), folder.join("png"), folder.join("page.html"));
    let [pbm_word, png_word, html_word] = [&pbm, &png, &html].map(|path| path.to_str().unwrap());
    let output = preview(&["--step", "4", "--panel", "all", "--pbm", pbm_word, "--png", png_word, "--html", html_word]);
    assert_eq!((output.status.code(), output.stdout.len()), (Some(0), 0));
    let screen = fs::read(pbm.join("step-004-screen.pbm")).expect("the screen");
    assert!(screen.starts_with(b"P4\n160 80\n") && screen.len() == 1_610 && screen[10..].iter().any(|byte| *byte != 0));
    assert_eq!(fs::read_dir(&pbm).unwrap().count(), 5);
    let picture = fs::read(png.join("step-004-panel-3.png")).expect("a picture");
    assert!(picture.starts_with(b"\x89PNG\r\n\x1a\n") && picture.ends_with(b"IEND\xae\x42\x60\x82"));
    let page = fs::read_to_string(html).expect("the page");
    assert!(page.contains("(print \\u0022I was in the hall,\\u0022)") && !page.contains("/* the steps */"));
}

#[test]
fn wrong_arguments_are_told_in_a_line() {
    let cases: [(&[&str], &str); 14] = [
        (&["--no-such"], "there is no option --no-such"),
        (&["-x"], "there is no option -x"),
        (&["--panel", "4"], "--panel 4: a panel's number is 0 to 3"),
        (&["--driven", "x"], "--driven x: a panel's number is 0 to 3"),
        (&["--panel"], "--panel needs a value"),
        (&["--step", "-1"], "--step -1: it takes a number"),
        (&["--step", "100000"], "--step 100000: the last step is 259"),
        (&["--step", "1", "--step", "2"], "--step is given twice"),
        (&["--columns", "wide"], "--columns wide: it takes a number"),
        (&["--colour", "red"], "--colour red: it takes always, never or auto"),
        (&["a.script", "b.script"], "SCRIPT is given twice"),
        (&["--pause", "-"], "--pause waits for the standard input, which - takes for the script"),
        (&["/no/such/file"], "/no/such/file: No such file or directory (os error 2)"),
        (&["/"], "/: Is a directory (os error 21)"),
    ];
    for (arguments, message) in cases {
        let output = preview(arguments);
        let errors = String::from_utf8(output.stderr).unwrap();
        assert_eq!(output.status.code(), Some(2), "{arguments:?}");
        assert_eq!(errors.lines().next(), Some(&*format!("preview: {message}")), "{arguments:?}");
        assert!(output.stdout.is_empty(), "{arguments:?}");
    }
}

#[test]
fn scripts_that_cannot_be_run_are_told_of() {
    let folder = folder("scripts");
    let cases: [(&str, Vec<u8>, &str); 3] = [
        ("long", vec![b'('; 4_097], "has more than 4096 bytes"),
        ("bytes", vec![0xff; 9], "is no text"),
        ("many", "(send 4 1)\n".repeat(50).into(), ""),
    ];
    for (name, bytes, message) in cases {
        let path = folder.join(name);
        fs::write(&path, bytes).expect("a script");
        let output = preview(&[path.to_str().unwrap()]);
        let errors = String::from_utf8(output.stderr).unwrap();
        let status = if message.is_empty() { 0 } else { 2 };
        assert_eq!(output.status.code(), Some(status), "{name}: {errors}");
        assert!(errors.contains(message), "{name}: {errors}");
    }
}

#[test]
fn what_a_terminal_would_obey_is_not_printed() {
    let path = folder("commands").join("script");
    fs::write(&path, "\x1b[31m\x07red\n").expect("a script");
    let output = preview(&[path.to_str().unwrap(), "--columns", "100"]);
    assert!(!printed(&output).contains(['\x1b', '\x07']) && printed(&output).contains("red"));
}

#[test]
fn files_that_cannot_be_written_are_told_of() {
    for option in ["--html", "--png", "--pbm"] {
        let output = preview(&["--step", "0", option, "/proc/no/such"]);
        assert_eq!(output.status.code(), Some(1), "{option}");
        assert!(String::from_utf8(output.stderr).unwrap().starts_with("preview: /proc/no/such: "), "{option}");
    }
}

#[test]
fn help_goes_to_the_output() {
    let output = preview(&["--help"]);
    assert_eq!(output.status.code(), Some(0));
    assert!(printed(&output).starts_with("usage: preview"));
}
