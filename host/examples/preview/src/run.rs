//! A script run step by step, with what there is to see after each call.

use crate::calls::Answer;
use crate::script::{Form, form};
use crate::{calls, font};
use caption::{Controller, Glass, Owed, Panel, Picture, Rect, Refusal, Screen, Setup};
use std::collections::BTreeSet;

/// So many are kept at most.
pub const MOST_STEPS: usize = 2_000;

/// What there is to see after one call.
pub struct Step {
    pub call: String,
    pub answer: Answer,
    /// The panel of a send.
    pub sent_to: Option<u8>,
    screen: Vec<u8>,
    pub panels: [Seen; 4],
}

impl Step {
    pub fn screen(&self) -> Picture<'_> {
        picture(&self.screen)
    }
}

/// One panel.
pub struct Seen {
    picture: Vec<u8>,
    pub owed: Owed,
    pub in_hand: Rect,
    pub lines_left: u32,
    pub lines_sent: u32,
    pub pixels_differing: usize,
    pub lines_differing: usize,
    /// For each band, the steps whose marks it is owed for.
    pub owed_for: Vec<Vec<usize>>,
    /// The same for what is in hand.
    pub in_hand_for: Vec<usize>,
}

impl Seen {
    pub fn picture(&self) -> Picture<'_> {
        picture(&self.picture)
    }
}

/// Of bytes that were a picture's.
fn picture(bytes: &[u8]) -> Picture<'_> {
    Picture::of(Glass::Small, bytes).expect("as many bytes as a picture has")
}

/// A script's steps, the open first.
pub struct Run {
    pub steps: Vec<Step>,
    /// The numbers of the lines that are no form.
    pub unreadable: Vec<usize>,
}

/// Run a script on a screen of its own, whose panels are driven where it says so, else sent to directly.
pub fn run(script: &str, driven: [bool; 4]) -> Result<Run, String> {
    let panels = driven.map(|driven| if driven { Panel::driven(Controller::new()) } else { Panel::direct() });
    let screen = Screen::open_with(&Setup::new(), panels).map_err(|refusal| refusal.to_string())?;
    let mut runner = Runner { screen: Box::new(screen), font: font::ascii16(), steps: vec![], unreadable: vec![] };
    runner.see("(open)", Answer::done(), None)?;
    for (place, line) in lines(script).enumerate() {
        runner.line(place + 1, line)?;
    }
    Ok(Run { steps: runner.steps, unreadable: runner.unreadable })
}

/// Each ends at a newline; the last one may lack it.
fn lines(script: &str) -> impl Iterator<Item = &str> {
    let script = script.strip_suffix('\n').map_or((!script.is_empty()).then_some(script), Some);
    script.into_iter().flat_map(|script| script.split('\n'))
}

struct Runner {
    screen: Box<Screen>,
    font: Vec<u8>,
    steps: Vec<Step>,
    unreadable: Vec<usize>,
}

impl Runner {
    fn line(&mut self, number: usize, line: &str) -> Result<(), String> {
        match form(line) {
            None => {
                self.unreadable.push(number);
                self.see(line, Answer::unreadable(number), None)
            }
            Some(Form::Send { number, times }) => self.sends(number, times),
            Some(Form::Call(call)) => {
                let answer = calls::answer(&mut self.screen, &self.font, &call);
                self.see(line, answer, None)
            }
        }
    }

    fn sends(&mut self, number: u8, times: u8) -> Result<(), String> {
        for _ in 0..times {
            let (answer, line) = calls::send(&mut self.screen, number);
            self.see(&format!("(send {number})"), answer, Some(number))?;
            if !line {
                break;
            }
        }
        Ok(())
    }

    fn see(&mut self, call: &str, answer: Answer, sent_to: Option<u8>) -> Result<(), String> {
        if self.steps.len() == MOST_STEPS {
            return Err(format!("the script has more than {MOST_STEPS} steps"));
        }
        let seen = |number| seen(&self.screen, number, &self.steps).map_err(|refusal| refusal.to_string());
        let panels = [seen(0)?, seen(1)?, seen(2)?, seen(3)?];
        let screen = self.screen.screen().bytes().to_vec();
        self.steps.push(Step { call: call.to_string(), answer, sent_to, screen, panels });
        Ok(())
    }
}

/// A panel, after the steps before.
fn seen(screen: &Screen, number: u8, steps: &[Step]) -> Result<Seen, Refusal> {
    let (owed, in_hand) = (screen.owed(number)?, screen.in_hand(number)?);
    let panel = screen.panel(number)?;
    let differing: Vec<(u16, u16)> = screen.screen().differing(panel).collect();
    let lines: BTreeSet<u16> = differing.iter().map(|(_, y)| *y).collect();
    Ok(Seen {
        picture: panel.bytes().to_vec(),
        owed,
        in_hand,
        lines_left: screen.lines_left(number)?,
        lines_sent: screen.lines_sent(number)?,
        pixels_differing: differing.len(),
        lines_differing: lines.len(),
        owed_for: (0..owed.len()).map(|band| owed_for(screen, number, band, owed[band], steps)).collect(),
        in_hand_for: in_hand_for(&owed, in_hand, number, steps),
    })
}

/// The steps whose marks a band is owed for. This one is among them where the rectangle has changed or a pixel of the band:
/// the core marks each pixel that it changes.
fn owed_for(screen: &Screen, number: u8, band: usize, owed: Rect, steps: &[Step]) -> Vec<usize> {
    let Some(last) = steps.last() else { return vec![0] };
    if owed.is_empty() {
        return vec![];
    }
    let before = &last.panels[usize::from(number)];
    let bytes = screen.screen().bytes().len() / before.owed.len();
    let part = band * bytes..(band + 1) * bytes;
    let mut marked_by = before.owed_for[band].clone();
    if owed != before.owed[band] || screen.screen().bytes()[part.clone()] != last.screen[part] {
        marked_by.push(steps.len());
    }
    marked_by
}

/// The same for what is in hand: those of the band that was taken just now, or as before.
fn in_hand_for(owed: &Owed, in_hand: Rect, number: u8, steps: &[Step]) -> Vec<usize> {
    let Some(last) = steps.last() else { return vec![] };
    let before = &last.panels[usize::from(number)];
    let taken = (0..owed.len()).find(|band| owed[*band].is_empty() && !before.owed[*band].is_empty());
    match taken {
        _ if in_hand.is_empty() => vec![],
        Some(band) => before.owed_for[band].clone(),
        None => before.in_hand_for.clone(),
    }
}
