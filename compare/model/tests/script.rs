//! What the model of the script program prints, by document 01's own words.

use model::run_script;

/// The printed lines.
fn run(script: impl AsRef<[u8]>) -> Vec<String> {
    let printed = String::from_utf8(run_script(script.as_ref())).unwrap();
    assert!(printed.ends_with('\n'));
    printed.lines().map(String::from).collect()
}

/// The line alone is unreadable, and so it is between others.
fn assert_bad(line: impl AsRef<[u8]>) {
    let line = line.as_ref();
    let shown = line.escape_ascii();
    assert_eq!(run([line, b"\n"].concat()), ["(bad 1)", "(end 0 80)"], "{shown}");
    assert_eq!(
        run([b"(send)\n", line, b"\n(send)"].concat()),
        ["(sent 0 0 160)", "(bad 2)", "(sent 1 0 160)", "(end 0 78)"],
        "{shown}"
    );
}

fn assert_done(line: &str) {
    assert_eq!(run(line)[0], "(done)", "{line}");
}

#[test]
fn the_two_scripts_of_document_01() {
    assert_eq!(run_script(b"(point (3 0) or)\n(send)\n"), b"(done)\n(sent 0 0 160)\n(end 0 79)\n");
    assert_eq!(run_script(b"(send)\n(point (3 0) or)\n"), b"(sent 0 0 160)\n(done)\n(end 1 80)\n");
}

#[test]
fn every_form_in_every_mode() {
    for mode in ["clear", "or", "xor", "unknown"] {
        assert_done(&format!("(point (3 0) {mode})"));
        assert_done(&format!("(line (0 0) (2 1) {mode})"));
    }
    assert_eq!(run("(line (0 0) (2 1) xor)"), ["(done)", "(end 3 80)"]);
    assert_eq!(run("(line (0 0) (2 1) unknown)"), ["(done)", "(end 0 80)"]);
    assert_eq!(run("(poke 4096 255)"), ["(done)", "(end 8 80)"]);
}

#[test]
fn lines_and_newlines() {
    assert_eq!(run(""), ["(end 0 80)"]);
    assert_eq!(run("\n"), ["(bad 1)", "(end 0 80)"]);
    assert_eq!(run("\n\n"), ["(bad 1)", "(bad 2)", "(end 0 80)"]);
    assert_eq!(run("(send)"), ["(sent 0 0 160)", "(end 0 79)"]);
    assert_eq!(run("(send)\n"), run("(send)"));
    assert_eq!(run("(send)\n\n"), ["(sent 0 0 160)", "(bad 2)", "(end 0 79)"]);
    assert_eq!(run("(point (3 0)\nor)"), ["(bad 1)", "(bad 2)", "(end 0 80)"]);
}

#[test]
fn numbers() {
    for number in ["0", "1", "9", "10", "99", "100", "199", "249", "250", "255"] {
        assert_done(&format!("(point ({number} 0) or)"));
        assert_done(&format!("(point (0 {number}) or)"));
        assert_done(&format!("(line ({number} 0) (0 {number}) xor)"));
        assert_done(&format!("(line (0 {number}) ({number} 0) xor)"));
        assert_done(&format!("(poke 4096 {number})"));
    }
    for address in ["0", "9", "4096", "9999", "10000", "57343", "57344", "65529", "65535"] {
        assert_done(&format!("(poke {address} 255)"));
    }
    let wrong =
        ["", "00", "01", "007", "-1", "+1", "-0", "1.0", "0x1", "1a", "a", "256", "260", "300", "999"];
    let wrapping = ["1000", "65536", "4294967296", "18446744073709551616", "99999999999999999999999"];
    for number in wrong.iter().chain(&wrapping) {
        assert_bad(format!("(point ({number} 0) or)"));
        assert_bad(format!("(point (0 {number}) or)"));
        for place in 0..4 {
            let mut four = ["0"; 4];
            four[place] = number;
            let [x1, y1, x2, y2] = four;
            assert_bad(format!("(line ({x1} {y1}) ({x2} {y2}) xor)"));
        }
        assert_bad(format!("(poke 4096 {number})"));
    }
    for address in
        ["", "00", "04096", "65536", "65540", "66000", "70000", "99999", "100000", "4294971392", "-1"]
    {
        assert_bad(format!("(poke {address} 255)"));
    }
}

#[test]
fn spaces() {
    for line in ["(point (3 0) or)", "(line (0 0) (2 1) xor)", "(poke 4096 255)", "(send)"] {
        for place in 0..=line.len() {
            let (before, after) = line.split_at(place);
            for space in [" ", "\t", "\r", "\0", "\u{b}", "\u{c}"] {
                assert_bad(format!("{before}{space}{after}"));
            }
            if let Some(without) = after.strip_prefix(' ') {
                assert_bad(format!("{before}{without}"));
                assert_bad(format!("{before}\t{without}"));
            }
        }
    }
}

#[test]
fn words() {
    for mode in
        ["", "And", "and", "copy", "OR", "Or", "o", "orr", "xo", "not", "0", "1", "unknow", "unknownn"]
    {
        assert_bad(format!("(point (3 0) {mode})"));
        assert_bad(format!("(line (0 0) (2 1) {mode})"));
    }
    for line in
        ["(Send)", "(sen)", "(sends)", "send", "(send", "send)", "()", "(", ")", " ", "(send))", "((send)"]
    {
        assert_bad(line);
    }
    for line in ["(send)(send)", "(send) (send)", "(send) ; sent", "; sent", "(send 0)", "(idle)", "(done)"] {
        assert_bad(line);
    }
    for line in ["(point 3 0 or)", "(point (3 0 or)", "(point 3 0) or)", "(point (3 0))", "(point (3 0) or"] {
        assert_bad(line);
    }
    for line in
        ["(line (0 0) (2 1))", "(line (0 0) xor)", "(line (0 0 2 1) xor)", "(line (0 0) (2 1) (3 2) xor)"]
    {
        assert_bad(line);
    }
    for line in
        ["(poke 4096)", "(poke (4096 255))", "(poke 4096 255 0)", "(peek 4096)", "(box (0 0) (1 1) or)"]
    {
        assert_bad(line);
    }
}

#[test]
fn bytes_from_128_on() {
    for byte in 128..=255 {
        for line in [&[byte][..], &[b"(send)", &[byte][..]].concat(), &[b"(sen", &[byte][..], b")"].concat()]
        {
            assert_bad(line);
        }
    }
}

/// Change request 6: L is the lines left in hand and the heights of the five bands.
#[test]
fn lines_are_counted_by_band() {
    let level = "(send)\n".repeat(80);
    let end = |script: &str| run(script).pop();
    let two = format!("{level}(point (3 0) or)\n(point (9 79) or)\n");
    assert_eq!(end(&two), Some("(end 2 2)".into()));
    assert_eq!(
        run(format!("{two}(send)\n(send)\n(send)\n"))[82..],
        ["(sent 0 3 4)", "(sent 79 9 10)", "(idle)", "(end 0 0)"]
    );
    let upright = "(line (5 15) (5 32) or)\n";
    assert_eq!(end(&format!("{level}{upright}")), Some("(end 18 18)".into()));
    assert_eq!(
        run(format!("{level}{upright}(send)\n(send)\n"))[81..],
        ["(sent 15 5 6)", "(sent 16 5 6)", "(end 16 16)"]
    );
    assert_eq!(end("(send)\n(line (0 0) (0 79) clear)\n"), Some("(end 0 95)".into()));
}

#[test]
fn the_longest_script() {
    let longest = "(send)\n".repeat(586)[..4_096].to_string();
    let printed = run(&longest);
    assert_eq!(printed.len(), 587);
    assert_eq!(printed[79..81], ["(sent 79 0 160)", "(idle)"]);
    assert_eq!(printed[585..], ["(bad 586)", "(end 0 0)"]);
    assert_eq!(run_script(format!("{longest}\n").as_bytes()), b"(long)\n");
    assert_eq!(run("\n".repeat(4_096))[4_095..], ["(bad 4096)", "(end 0 80)"]);
    assert_eq!(run_script("\n".repeat(4_097).as_bytes()), b"(long)\n");
}

#[test]
fn a_poke_that_is_ignored_is_done() {
    assert_eq!(run("(poke 57343 255)\n(poke 57344 255)"), ["(done)", "(done)", "(end 0 80)"]);
}
