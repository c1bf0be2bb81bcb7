//! One page with all steps: page.html with the steps as data in it.

use crate::look::{BAND, HEIGHT, WIDTH};
use crate::run::{Seen, Step};
use caption::{Picture, Rect};
use std::collections::HashMap;
use std::fmt::Display;

const PAGE: &str = include_str!("../page.html");
/// Where the data stands in the page.
const PLACE: &str = "/* the steps */";

pub fn page(name: &str, steps: &[Step], panel: usize) -> String {
    let mut shared = Shared::default();
    let steps: Vec<String> = steps.iter().map(|step| shared.step(step)).collect();
    let data = format!(
        "const data = {{name: {}, panel: {panel}, width: {WIDTH}, height: {HEIGHT}, band: {BAND},\nlines: {},\npictures: \
         {},\nsteps: {}}};",
        string(name),
        list(shared.lines.texts.iter().map(|text| string(text))),
        list(&shared.pictures.texts),
        list(steps).replace("},{", "},\n{"),
    );
    PAGE.replace(PLACE, &data)
}

/// Lines and pictures, each once: most steps change one line of one picture.
#[derive(Default)]
struct Shared {
    lines: Texts,
    pictures: Texts,
}

#[derive(Default)]
struct Texts {
    places: HashMap<String, usize>,
    texts: Vec<String>,
}

impl Texts {
    fn place(&mut self, text: String) -> usize {
        *self.places.entry(text).or_insert_with_key(|text| {
            self.texts.push(text.clone());
            self.texts.len() - 1
        })
    }
}

impl Shared {
    fn step(&mut self, step: &Step) -> String {
        let panels = step.panels.each_ref().map(|seen| self.seen(seen));
        format!(
            "{{call: {}, answer: {}, reason: {}, screen: {}, panels: {}}}",
            string(&step.call),
            string(&step.answer.text),
            string(step.answer.reason.as_deref().unwrap_or_default()),
            self.picture(step.screen()),
            list(panels),
        )
    }

    fn seen(&mut self, seen: &Seen) -> String {
        format!(
            "{{picture: {}, left: {}, sent: {}, pixels: {}, lines: {}, hand: {}, handFor: {}, owed: {}, owedFor: {}}}",
            self.picture(seen.picture()),
            seen.lines_left,
            seen.lines_sent,
            seen.pixels_differing,
            seen.lines_differing,
            rect(seen.in_hand),
            list(&seen.in_hand_for),
            list(seen.owed.iter().map(|owed| rect(*owed))),
            list(seen.owed_for.iter().map(list)),
        )
    }

    /// The place of a picture, which is a list of places of lines.
    fn picture(&mut self, picture: Picture) -> usize {
        let lines = (0..picture.glass().height()).map(|y| picture.line(y));
        let text = list(lines.map(|line| self.lines.place(hexadecimal(line))));
        self.pictures.place(text)
    }
}

fn hexadecimal(bytes: &[u8]) -> String {
    bytes.iter().map(|byte| format!("{byte:02x}")).collect()
}

fn rect(rect: Rect) -> String {
    list([rect.left, rect.top, rect.right, rect.bottom])
}

fn list<T: Display>(items: impl IntoIterator<Item = T>) -> String {
    let items: Vec<String> = items.into_iter().map(|item| item.to_string()).collect();
    format!("[{}]", items.join(","))
}

/// A text of JavaScript that can stand in a page, whatever it holds.
fn string(text: &str) -> String {
    let escaped: String = text
        .chars()
        .map(|character| match character {
            ' ' | '!' | '#'..=';' | '=' | '?'..='[' | ']'..='~' => character.to_string(),
            other => {
                let mut units = [0; 2];
                other.encode_utf16(&mut units).iter().map(|unit| format!("\\u{unit:04x}")).collect()
            }
        })
        .collect();
    format!("\"{escaped}\"")
}

#[test]
fn texts_cannot_leave_their_quotes_or_the_script() {
    assert_eq!(string("(print \"</script>\\\")"), "\"(print \\u0022\\u003c/script\\u003e\\u005c\\u0022)\"");
    assert_eq!(string("\u{2028}ü😀\n"), "\"\\u2028\\u00fc\\ud83d\\ude00\\u000a\"");
}

#[test]
fn the_page_has_one_place_for_the_steps() {
    assert_eq!(PAGE.matches(PLACE).count(), 1);
    assert!(!PAGE.contains("http"), "nothing is taken from outside");
}
