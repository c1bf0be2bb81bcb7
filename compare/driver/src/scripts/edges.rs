//! Scripts that every run starts with: short and long ones, and many lines near the forms.

use super::make::LONGEST;

const FORMS: [&str; 4] = ["(point (3 0) or)", "(line (0 0) (2 1) xor)", "(poke 4096 255)", "(send)"];

const SHORT: [&str; 12] = [
    "",
    "\n",
    "\n\n",
    " ",
    "(send)",
    "(send)\n",
    "(send)\n\n",
    "\n(send)",
    "(point (3 0) or)\n(send)\n",
    "(send)\n(point (3 0) or)\n",
    "(poke 4096 255)",
    "(line (0 0) (2 1) xor)",
];

pub fn edges() -> Vec<Vec<u8>> {
    let mut scripts: Vec<Vec<u8>> = SHORT.iter().map(|script| script.as_bytes().to_vec()).collect();
    for line in ["\n", " ", "(", "(send)\n", "(poke 4096 255)\n", "(poke 65536 0)\n"] {
        for length in [LONGEST - 1, LONGEST, LONGEST + 1, 2 * LONGEST, 2 * LONGEST + 1, 100_000] {
            scripts.push(line.bytes().cycle().take(length).collect());
        }
    }
    scripts.extend(packed(near_forms()));
    scripts.extend(packed(numbers()));
    scripts
}

/// Every form with any one byte changed to every other, left out, or doubled.
fn near_forms() -> Vec<Vec<u8>> {
    let mut lines = vec![];
    for form in FORMS.map(str::as_bytes) {
        for place in 0..form.len() {
            let with = |middle: &[u8]| [&form[..place], middle, &form[place + 1..]].concat();
            lines.push(with(&[]));
            lines.push(with(&[form[place]; 2]));
            lines.extend((0..=255).map(|byte| with(&[byte])));
        }
    }
    lines
}

/// Every number to past the limits of one byte, and those around the limit of addresses.
fn numbers() -> Vec<Vec<u8>> {
    let small = 0..=300;
    let addresses = (0..=300).chain(9_990..=10_010).chain(57_340..=57_347).chain(65_500..=65_600);
    let bytes = small.flat_map(|n| {
        [
            format!("(point ({n} 0) xor)"),
            format!("(point (0 {n}) xor)"),
            format!("(line ({n} 0) (9 9) xor)"),
            format!("(line (0 {n}) (9 9) xor)"),
            format!("(line (0 0) ({n} 9) xor)"),
            format!("(line (0 0) (9 {n}) xor)"),
            format!("(poke 4096 {n})"),
            format!("(poke 4096 0{n})"),
        ]
    });
    let addresses = addresses.map(|address| format!("(poke {address} 255)"));
    bytes.chain(addresses).map(String::into_bytes).collect()
}

/// The lines in as few scripts as hold them in this order.
fn packed(lines: Vec<Vec<u8>>) -> Vec<Vec<u8>> {
    let mut scripts = vec![vec![]];
    for line in lines {
        let last = scripts.last_mut().expect("there is one from the start");
        if last.len() + line.len() < LONGEST {
            last.extend(line);
            last.push(b'\n');
        } else {
            scripts.push([line, b"\n".to_vec()].concat());
        }
    }
    scripts
}
