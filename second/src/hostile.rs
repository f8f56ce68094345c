//! A device whose program does by chance whatever the rules let it do, and the
//! law tried on it.

use crate::chance::Chance;
use crate::choice;
use crate::device::{Device, Memory, PRESENT};
use crate::law::{Counted, Tally};
use crate::layout::{self, Event, Request};
use crate::lines::Line;
use crate::unit::{Addresses, Answer, Attachment, Unit};

pub struct Hostile(Chance);

impl Hostile {
    pub fn poll(&mut self, device: &mut Device) {
        let Hostile(chance) = self;
        if chance.below(150) == 0 {
            device.restart();
            for address in 0..device.memory.size() {
                if !layout::is_toggle(address) && chance.percent(20) {
                    device.memory.set(address, chance.byte());
                }
            }
        }
        if device.restart_waits {
            return;
        }
        if device.working {
            let address = chance.from(layout::DATA_AREA, device.memory.size() - 1);
            device.memory.set(address, chance.byte());
        }
        device.memory.set(0x0C, chance.byte());
        if chance.percent(40) {
            let end = std::array::from_fn(|_| chance.byte());
            device.post_synchronous(&end, toggle(chance));
        }
        if chance.percent(30) {
            device.post_event(&event(chance), toggle(chance));
        }
        if chance.percent(15) {
            let expedited = std::array::from_fn(|_| chance.byte());
            device.post_expedited(&expedited, toggle(chance));
        }
    }
}

/// Mostly present, and at times bad.
fn toggle(chance: &mut Chance) -> u8 {
    match chance.below(60) {
        0 => chance.byte().max(1),
        _ => PRESENT,
    }
}

fn event(chance: &mut Chance) -> Event {
    let mut event = std::array::from_fn(|_| chance.byte());
    match chance.below(40) {
        0 => {}
        1 => event = [0x20, 2, 0, 0, 0, 0xFF],
        2..10 => event[..3].copy_from_slice(&[0x28, 1, 0x80]),
        10..14 => event[..3].copy_from_slice(&[0x28, 2, 0]),
        _ => event[0] = chance.pick(&[0x2C, 0x2E, 0x30, 0x34]),
    }
    event
}

/// A line in any lawful state, lost over or not.
fn line(chance: &mut Chance) -> Line {
    let waits = chance.percent(80);
    let mut device = Device::fresh(Memory::default(), chance.from(256, 400));
    device.last = std::array::from_fn(|_| chance.byte());
    if !waits {
        device.acknowledge();
        device.working = chance.percent(50);
        device.seen = chance.byte() & 1;
        device.taken = chance.count();
        device.events = chance.count();
        device.expedited = chance.count();
        for toggle in layout::TOGGLES {
            device.memory.set(toggle, chance.toggle_byte());
        }
    }
    let line = Line::hostile(device, Hostile(Chance::of_case(chance.word(), 0)));
    (0..chance.below(3)).fold(line, |line, _| {
        let mut marks = [b'P'; 64];
        let first = chance.below(44);
        let mark = chance.pick(b"UH");
        marks[first..first + chance.pick(&[1, 12, 20])].fill(mark);
        for mark in &mut marks {
            *mark = chance.pick(&[*mark, *mark, *mark, b'U', b'H']);
        }
        line.lost_over(choice::marks(&marks).unwrap())
    })
}

const ADDRESSES: Addresses = [0x40, 0x41, 0xFF, 0xFF, 0xFF];

/// A unit with a few lines, and what the answers tell.
struct Trial {
    chance: Chance,
    unit: Unit,
    lines: Vec<Line>,
    tallies: Vec<Tally>,
}

impl Trial {
    fn new(seed: u64) -> Self {
        let mut chance = Chance::of_case(seed, 1);
        let attachment = chance.pick(&[Attachment::Bsc, Attachment::Local, Attachment::Sna]);
        let lines: Vec<Line> = (0..3).map(|_| line(&mut chance)).collect();
        let mut unit = Unit::new(attachment);
        for port in 0..3 {
            unit.configure(port, ADDRESSES).unwrap();
        }
        Trial {
            chance,
            unit,
            tallies: vec![Tally::default(); lines.len()],
            lines,
        }
    }

    /// Some call, mostly one that the port's record lets through.
    fn call(&mut self, port: usize) -> (Counted, Answer<()>) {
        let chance = &mut self.chance;
        let (unit, line) = (&mut self.unit, &mut self.lines[port]);
        let connection = unit.ports()[port].connection;
        let port = port as u8;
        let request: Request = [0x01, 0, 0, 0, 0, chance.byte(), 0x00, 0x80];
        let likely = match connection {
            None => 0,
            Some(c) if c.marks.expedited => 5,
            Some(c) if c.marks.ended => 3,
            Some(c) if c.marks.asynchronous => 4,
            Some(c) if c.held.is_none() && chance.percent(50) => 2,
            Some(_) => 1,
        };
        let any = chance.below(9);
        match chance.pick(&[likely, likely, likely, likely, likely, likely, any]) {
            0 => (Counted::Attach, unit.attach(port, line)),
            2 => {
                let done = unit.request(port, &request, &[1, 2, 3], line);
                (Counted::Request(request), done)
            }
            3 => (Counted::Collect, unit.collect(port, line).map(drop)),
            4 => (Counted::Take, unit.take(port, line).map(drop)),
            5 => (
                Counted::Expedite,
                unit.expedite(port, &[7; 4], line).map(drop),
            ),
            6 => {
                let done = unit.fetch(port, 0x80, 9, &mut [0; 16], line);
                (Counted::Other, done)
            }
            7 if chance.percent(20) => (Counted::Other, Err(unit.drop(port, line))),
            8 => (Counted::Other, unit.configure(port, ADDRESSES)),
            _ => (Counted::Other, unit.poll(port, line).map(drop)),
        }
    }

    /// Makes a call and checks the law at all ports; the call's number, or 0.
    fn check(&mut self) -> u8 {
        let port = self.chance.below(self.lines.len());
        let (counted, answer) = self.call(port);
        self.tallies[port].note(counted, answer);
        for (port, (tally, line)) in self.tallies.iter().zip(&self.lines).enumerate() {
            let fault = tally.fault(&self.unit.ports()[port], Some(line));
            assert_eq!(fault, None, "port {port}, {answer:?}");
        }
        match answer {
            Ok(()) => 0,
            Err(ending) => ending.number(),
        }
    }
}

/// So many trials of 400 calls; the endings that came about, by number.
fn try_the_law(trials: u64) -> [u64; 28] {
    let mut endings = [0; 28];
    for seed in 0..trials {
        let mut trial = Trial::new(seed);
        for _ in 0..400 {
            endings[usize::from(trial.check())] += 1;
        }
    }
    endings
}

#[test]
fn the_law_holds_over_hostile_lines() {
    let endings = try_the_law(300);
    // Nothing that can end a call was left out.
    for number in (4..=6).chain(10..=11).chain(21..=27) {
        assert_ne!(endings[number], 0, "{number}: {endings:?}");
    }
}

/// Eight million calls, for once.
#[test]
#[ignore = "takes long"]
fn the_law_holds_over_many_hostile_lines() {
    println!("{:?}", try_the_law(20_000));
}
