//! A plain replayer of schedules and scripts, to time csqsim against: the same formats, written as
//! one writes such a program in Rust. It answers what csqsim answers to a schedule in which no IRP
//! is used again, and to a script of inserts, removals, marks and statuses alone; other steps and
//! calls end it.
use std::collections::VecDeque;
use std::fmt::Write as _;
use std::io::{Read, Write};

#[derive(Clone, Copy, PartialEq)]
enum Inside {
    Nothing,
    Armed(usize),
    FlagSeen(usize),
    Removing,
    Cancelling(usize),
}

#[derive(Clone, Copy, PartialEq)]
enum Place {
    Home,
    Listed,
    OwedBy(usize),
    HeldBy(usize),
    Completed(u32, usize),
}

#[derive(Clone, Copy)]
struct Irp {
    cancel: bool,
    routine: bool,
    removed: bool,
    place: Place,
}

struct Machine {
    irps: Vec<Irp>,
    passes: Vec<Inside>,
    lock: usize,
}

const CANCELLED: u32 = 0xC000_0120;

impl Machine {
    fn new(irps: usize, passes: usize) -> Machine {
        let irp = Irp { cancel: false, routine: false, removed: false, place: Place::Home };
        Machine { irps: vec![irp; irps], passes: vec![Inside::Nothing; passes + 1], lock: 0 }
    }

    fn refusal(&self, pass: usize, verb: &str, irp: usize) -> Option<String> {
        let now = self.passes[pass];
        let needs_lock = matches!(verb, "arm" | "test" | "disarm" | "end" | "out" | "renew");
        let next = match now {
            Inside::Nothing =>
                matches!(verb, "arm" | "disarm" | "end" | "flag" | "out" | "done" | "renew"),
            Inside::Armed(of) => verb == "test" && of == irp,
            Inside::FlagSeen(of) => verb == "disarm" && of == irp,
            Inside::Removing => matches!(verb, "disarm" | "end"),
            Inside::Cancelling(of) => verb == "take" && of == irp,
        };
        if irp >= self.irps.len() {
            return Some("UnknownIrp".into());
        }
        if needs_lock && self.lock != 0 && self.lock != pass {
            return Some(format!("LockHeld p{}", self.lock));
        }
        if !next {
            return Some("NotNext".into());
        }
        let place = self.irps[irp].place;
        let cause = match verb {
            "arm" if place != Place::Home => "NotHome",
            "disarm"
                if now != Inside::FlagSeen(irp)
                    && !matches!(place, Place::Listed | Place::OwedBy(_)) => "NotListed",
            "out" if place != Place::OwedBy(pass) => "NotOwed",
            "done" if place != Place::HeldBy(pass) => "NotHeld",
            _ => return None,
        };
        Some(cause.into())
    }

    fn step(&mut self, pass: usize, verb: &str, at: usize) -> u32 {
        let irp = &mut self.irps[at];
        let before = self.passes[pass];
        let (found, after) = match verb {
            "arm" => {
                irp.place = Place::Listed;
                (std::mem::replace(&mut irp.routine, true), Inside::Armed(at))
            }
            "test" => (irp.cancel, if irp.cancel { Inside::FlagSeen(at) } else { Inside::Nothing }),
            "disarm" => {
                let found = std::mem::replace(&mut irp.routine, false);
                if found {
                    irp.place = Place::HeldBy(pass);
                    irp.removed = !matches!(before, Inside::FlagSeen(_));
                }
                let ends = found || matches!(before, Inside::FlagSeen(_));
                (found, if ends { Inside::Nothing } else { Inside::Removing })
            }
            "flag" => (std::mem::replace(&mut irp.cancel, true), Inside::Cancelling(at)),
            "take" => {
                let found = std::mem::replace(&mut irp.routine, false);
                if found {
                    irp.place = Place::OwedBy(pass);
                }
                (found, Inside::Nothing)
            }
            "out" => {
                irp.place = Place::HeldBy(pass);
                (false, Inside::Nothing)
            }
            "done" => {
                irp.place = Place::Completed(if irp.removed { 0 } else { CANCELLED }, pass);
                (false, Inside::Nothing)
            }
            _ => (false, Inside::Nothing),
        };
        self.passes[pass] = after;
        let locks = matches!(after, Inside::Armed(_) | Inside::FlagSeen(_) | Inside::Removing);
        if locks || self.lock == pass {
            self.lock = if locks { pass } else { 0 };
        }
        u32::from(found)
    }

    fn close(&self, text: &mut String) {
        let mut rest = self.passes.iter().all(|now| *now == Inside::Nothing);
        for (number, irp) in self.irps.iter().enumerate() {
            rest &= !matches!(irp.place, Place::OwedBy(_) | Place::HeldBy(_));
            let place = match irp.place {
                Place::Home if !irp.cancel => continue,
                Place::Home => "home".into(),
                Place::Listed | Place::OwedBy(_) => "listed".into(),
                Place::HeldBy(pass) => format!("held p{pass}"),
                Place::Completed(status, pass) => format!("completed {status:08X} by p{pass}"),
            };
            writeln!(text, "irp {number} {place} cancel {}", u32::from(irp.cancel)).unwrap();
        }
        writeln!(text, "rest {}", if rest { "yes" } else { "no" }).unwrap();
    }
}

/// The pass, the step and the IRP of a line.
fn parse_step(line: &str) -> Option<(usize, &str, usize)> {
    let mut words = line.split(' ');
    let pass = words.next()?.strip_prefix('p')?.parse().ok()?;
    let verb = words.next()?;
    let irp = match words.next() {
        None if verb == "end" => 0,
        word => word?.parse().ok()?,
    };
    let known =
        matches!(verb, "arm" | "test" | "disarm" | "end" | "flag" | "take" | "out" | "done");
    (known && words.next().is_none()).then_some((pass, verb, irp))
}

fn replay(input: &str, text: &mut String) -> bool {
    let mut machine = Machine::new(8, 4);
    for (number, line) in input.lines().enumerate() {
        if line.is_empty() || line.starts_with('#') {
            continue;
        }
        let Some((pass, verb, irp)) = parse_step(line) else {
            writeln!(text, "line {} malformed", number + 1).unwrap();
            return false;
        };
        if let Some(cause) = machine.refusal(pass, verb, irp) {
            writeln!(text, "line {} refused {cause}", number + 1).unwrap();
            return false;
        }
        let found = machine.step(pass, verb, irp);
        writeln!(text, "{line} found {found}").unwrap();
    }
    machine.close(text);
    true
}

/// A queue of one thread, as a script's calls change it.
struct Queue {
    cancel: Vec<bool>,
    armed: Vec<bool>,
    status: Vec<Option<u32>>,
    listed: VecDeque<(usize, usize)>,
    owed: Vec<bool>,
    held: Vec<bool>,
}

impl Queue {
    fn new(irps: usize) -> Queue {
        Queue {
            cancel: vec![false; irps],
            armed: vec![false; irps],
            status: vec![None; irps],
            listed: VecDeque::new(),
            owed: vec![false; irps],
            held: vec![false; irps],
        }
    }

    /// Takes the first match that no cancel has.
    fn take(&mut self, wanted: impl Fn(usize, usize) -> bool) -> Option<usize> {
        let at = self.listed.iter().position(|&(irp, file)| wanted(irp, file) && self.armed[irp])?;
        let (irp, _) = self.listed.remove(at)?;
        self.armed[irp] = false;
        self.held[irp] = true;
        Some(irp)
    }

    fn call(&mut self, line: &str, text: &mut String) -> Option<()> {
        let words: Vec<&str> = line.split(' ').collect();
        match words.as_slice() {
            ["insert", irp, file, place @ ("back" | "front")] => {
                let (irp, file): (usize, usize) = (irp.parse().ok()?, file.parse().ok()?);
                if *place == "back" {
                    self.listed.push_back((irp, file))
                } else {
                    self.listed.push_front((irp, file))
                }
                self.armed[irp] = true;
                text.push_str("pending\n");
            }
            ["next", peek] => {
                let wanted = if *peek == "*" { None } else { Some(peek.parse::<usize>().ok()?) };
                match self.take(|_, file| wanted.is_none_or(|wanted| wanted == file)) {
                    Some(irp) => writeln!(text, "irp {irp}").unwrap(),
                    None => text.push_str("none\n"),
                }
            }
            ["remove", irp] => {
                let named: usize = irp.parse().ok()?;
                match self.take(|irp, _| irp == named) {
                    Some(irp) => writeln!(text, "irp {irp}").unwrap(),
                    None => text.push_str("none\n"),
                }
            }
            ["mark", irp] => {
                let irp: usize = irp.parse().ok()?;
                self.cancel[irp] = true;
                let found = std::mem::replace(&mut self.armed[irp], false);
                self.owed[irp] |= found;
                text.push_str(if found { "claimed\n" } else { "unclaimed\n" });
            }
            ["status", irp] => match self.status[irp.parse::<usize>().ok()?] {
                Some(status) => writeln!(text, "{status:08X}").unwrap(),
                None => text.push_str("unset\n"),
            },
            _ => return None,
        }
        Some(())
    }

    fn close(&self, text: &mut String) {
        text.push_str(if self.listed.is_empty() { "left none" } else { "left" });
        for (irp, _) in &self.listed {
            write!(text, " {irp}").unwrap();
        }
        text.push('\n');
        for (name, kept) in [("held", &self.held), ("owed", &self.owed)] {
            if kept.contains(&true) {
                text.push_str(name);
                for irp in (0..kept.len()).filter(|&irp| kept[irp]) {
                    write!(text, " {irp}").unwrap();
                }
                text.push('\n');
            }
        }
    }
}

fn make_calls(input: &str, text: &mut String) -> bool {
    let mut queue = Queue::new(1024);
    for (number, line) in input.lines().enumerate() {
        if line.is_empty() || line.starts_with('#') {
            continue;
        }
        if queue.call(line, text).is_none() {
            writeln!(text, "line {} malformed", number + 1).unwrap();
            return false;
        }
    }
    queue.close(text);
    true
}

fn main() {
    let (mut input, mut text) = (String::new(), String::new());
    std::io::stdin().read_to_string(&mut input).unwrap();
    let handled = match std::env::args().nth(1).as_deref() {
        Some("script") => make_calls(&input, &mut text),
        _ => replay(&input, &mut text),
    };
    std::io::stdout().write_all(text.as_bytes()).unwrap();
    std::process::exit(if handled { 0 } else { 2 });
}
