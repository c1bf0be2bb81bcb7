//! What was done: device calls accepted and refused, refusals by cause, and what accepted calls met.

use super::events::{EVENTS, met};
use crate::core_side;
use calls::{Answer, DeviceBuffers, DeviceCall};
use model::device::{Cause, Causes};

const CALLS: usize = DeviceCall::NAMES.len();

/// Numbers for write, read and drive.
type ByCall = [u64; CALLS];

/// One of each call, in their order.
const EACH: [DeviceCall; CALLS] = [
    DeviceCall::Write { register: 0, value: 0 },
    DeviceCall::Read { register: 0 },
    DeviceCall::Drive { number: 0 },
];

/// Two refusals that are due at once. The first is answered.
const ORDERS: [([u32; 2], &str); 6] = [
    ([1, 2], "LENT before STATE"),
    ([1, 9], "LENT before PANEL"),
    ([1, 10], "LENT before REGISTER"),
    ([2, 9], "STATE before PANEL"),
    ([2, 10], "STATE before REGISTER"),
    ([9, 10], "PANEL before REGISTER"),
];

#[derive(Debug)]
pub struct Tally {
    accepted: ByCall,
    refused: ByCall,
    by_core: ByCall,
    /// Refusals with no other cause of the same number.
    alone: [ByCall; Cause::COUNT],
    orders: [ByCall; ORDERS.len()],
    events: [u64; EVENTS.len()],
    pub lists: u64,
}

impl Default for Tally {
    fn default() -> Self {
        Self {
            accepted: [0; CALLS],
            refused: [0; CALLS],
            by_core: [0; CALLS],
            alone: [[0; CALLS]; Cause::COUNT],
            orders: [[0; CALLS]; ORDERS.len()],
            events: [0; EVENTS.len()],
            lists: 0,
        }
    }
}

/// Something that a full run meets, and how often it was met.
pub struct Met {
    pub what: String,
    pub count: u64,
}

impl Tally {
    /// An accepted call that found these bytes, and this memory.
    pub fn accepted(
        &mut self,
        call: &DeviceCall,
        answer: &Answer,
        before: &DeviceBuffers,
        memory: &[u8],
        level: bool,
    ) {
        self.accepted[call.number()] += 1;
        met(call, answer, before, memory, level, |event| self.events[event as usize] += 1);
    }

    /// A refused call, with all causes that held.
    pub fn refused(&mut self, call: &DeviceCall, causes: Causes) {
        let call = call.number();
        self.refused[call] += 1;
        let Some(first) = causes.first() else { return };
        let number = |cause: Cause| cause.refusal() as u32;
        if causes.each().filter(|cause| number(*cause) == number(first)).count() == 1 {
            self.alone[first as usize][call] += 1;
        }
        for (([answered, other], _), count) in ORDERS.iter().zip(&mut self.orders) {
            let both = number(first) == *answered && causes.each().any(|cause| number(cause) == *other);
            count[call] += both as u64;
        }
    }

    pub fn core_compared(&mut self, call: &DeviceCall) {
        self.by_core[call.number()] += 1;
    }

    pub fn calls(&self) -> u64 {
        self.accepted.iter().chain(&self.refused).sum()
    }

    /// Every cause of a refusal by call, every order of two, and every event.
    pub fn all_met(&self) -> Vec<Met> {
        let mut all = vec![];
        for (cause, counts) in Cause::all().zip(&self.alone) {
            for call in EACH.iter().filter(|call| cause.befalls(call)) {
                let name = DeviceCall::NAMES[call.number()];
                let what = format!("{name} refused with {}: {}", cause.refusal() as u32, cause.in_words());
                all.push(Met { what, count: counts[call.number()] });
            }
        }
        for ((numbers, words), counts) in ORDERS.iter().zip(&self.orders) {
            for call in EACH.iter().filter(|call| is_due(*numbers, call)) {
                let what = format!("{} refused, {words}", DeviceCall::NAMES[call.number()]);
                all.push(Met { what, count: counts[call.number()] });
            }
        }
        let events = EVENTS.iter().zip(&self.events);
        all.extend(events.map(|((_, words), count)| Met { what: words.to_string(), count: *count }));
        all
    }

    pub fn print(&self, core: bool) {
        println!("\n{:<24}{:>12}{:>12}{:>12}", "device call", "accepted", "refused", "by core");
        for (name, call) in DeviceCall::NAMES.into_iter().zip(0..) {
            let by_core =
                if core && core_side::has(name) { self.by_core[call].to_string() } else { "-".into() };
            println!("{name:<24}{:>12}{:>12}{by_core:>12}", self.accepted[call], self.refused[call]);
        }
        print_by_call("refused for one cause of its number alone", ["write", "read", "drive"]);
        for (cause, counts) in Cause::all().zip(&self.alone) {
            let name = format!("{:>2} {}", cause.refusal() as u32, cause.in_words());
            print_by_call(&name, shown(counts, |call| cause.befalls(call)));
        }
        print_by_call("refused for two numbers at once", ["write", "read", "drive"]);
        for ((numbers, words), counts) in ORDERS.iter().zip(&self.orders) {
            print_by_call(&format!("   {words}"), shown(counts, |call| is_due(*numbers, call)));
        }
        println!("accepted");
        for ((_, words), count) in EVENTS.iter().zip(&self.events) {
            println!("   {words:<61}{count:>12}");
        }
    }
}

/// Whether a call can be refused with both of these numbers: the driver alone names a panel.
fn is_due(numbers: [u32; 2], call: &DeviceCall) -> bool {
    let may = |number: u32| Cause::all().any(|cause| cause.refusal() as u32 == number && cause.befalls(call));
    numbers.into_iter().all(may)
}

/// A count for each call, - where there can be none.
fn shown(counts: &ByCall, is_due: impl Fn(&DeviceCall) -> bool) -> [String; CALLS] {
    EACH.map(|call| if is_due(&call) { counts[call.number()].to_string() } else { "-".into() })
}

fn print_by_call(name: &str, [write, read, drive]: [impl std::fmt::Display; CALLS]) {
    println!("{name:<52}{write:>12}{read:>12}{drive:>12}");
}
