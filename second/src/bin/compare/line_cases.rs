//! Seeded lists of commands to one line, as docs/LINERUN.md has them.

use std::io::{self, BufWriter, Write};

use crate::running::Case;
use crate::spoil;
use second::chance::Chance;

/// Makes no line and clears the notes, so that every case begins alike.
const FENCE: &str = "L,state,256,1,1,00,0000000000000000,0,0,0,0,00";

/// As long as a line can be.
const LONGEST: &str =
    "L,state,4294967295,1,1,FF,FFFFFFFFFFFFFFFF,4294967295,4294967295,4294967295,255,FF";

/// Lines that are nearly good.
const ODD: [&str; 38] = [
    "",
    ",",
    "?",
    "?,13",
    "p",
    "PP",
    "P,P",
    "Q",
    "r,0000",
    "R,000",
    "R,00000",
    "R,+000",
    "R,0x00",
    "R,00fF",
    "R,000a",
    "W,0080,ab",
    "W,00Ff,00",
    "R,-001",
    "W,0080,0",
    "W,0080,000",
    "W,0080,0G",
    "W,0080,@0",
    "W,0080,/0",
    "W,0080,:0",
    "W,,00",
    "X,",
    "L",
    "L,",
    "L,Terminal",
    "L,terminal,",
    "L,terminalx",
    "L,printer",
    "L,state,",
    "L,state,256,1,1,00,0000000000000000,0,0,0,0",
    "Z,",
    "M,0000,00,00",
    "END",
    "L,printer,00000000,0000000000",
];

const DPASTAT: usize = 0x00;
const DPSSTAT: usize = 0x01;
const EXFAK: usize = 0x26;
const CUSYN: usize = 0x45;
const CUFRP2: usize = 0x47;
const TOGGLES: [usize; 3] = [DPASTAT, DPSSTAT, EXFAK];
const REQUEST: [usize; 8] = [0x44, 0x46, 0x47, 0x48, 0x49, 0x42, 0x40, 0x41];
const STATUS: [usize; 16] = [
    0x02, 0x03, 0x04, 0x05, 0x07, 0x08, 0x09, 0x0A, 0x0B, 0x06, 0x21, 0x20, 0x5C, 0x5D, 0x5E, 0x5F,
];

/// Addresses at the edges of fields and areas.
const EDGES: [usize; 36] = [
    0x0000, 0x0001, 0x0002, 0x0005, 0x0006, 0x0007, 0x000B, 0x000C, 0x0020, 0x0021, 0x0025, 0x0026,
    0x0027, 0x003F, 0x0040, 0x0041, 0x0042, 0x0044, 0x0045, 0x0047, 0x005B, 0x005C, 0x005F, 0x0060,
    0x007F, 0x0080, 0x0081, 0x00FF, 0x0100, 0x0101, 0x0FFF, 0x1000, 0x7FFF, 0x8000, 0xFFFE, 0xFFFF,
];

/// The case of this number; with some text after its last LF, at times.
pub fn case(seed: u64, number: u64) -> Case {
    let mut maker = Maker::new(Chance::of_case(seed, number));
    maker.line(FENCE);
    maker.case();
    let open_end = maker.chance.percent(4);
    if open_end {
        maker.open_end();
    }
    Case {
        lines: maker.lines,
        open_end,
    }
}

#[derive(Clone, Copy, PartialEq, Eq)]
enum Kind {
    Terminal,
    Printer,
    State,
}

/// What an `L,state` line says.
struct Beginning {
    size: u32,
    waits: u8,
    working: u8,
    seen: u8,
    counts: [u32; 3],
    row: u8,
    fill: u8,
}

impl Beginning {
    fn text(&self, last: &str) -> String {
        let [taken, events, expedited] = self.counts;
        format!(
            "L,state,{},{},{},{:02X},{last},{taken},{events},{expedited},{},{:02X}",
            self.size, self.waits, self.working, self.seen, self.row, self.fill
        )
    }
}

/// Makes lines. It keeps in mind only what helps to get deep: which line there
/// is, its size, its marks and the start toggle last written.
struct Maker {
    chance: Chance,
    lines: Vec<Vec<u8>>,
    /// Whether each command is followed by a `T` line.
    telling: bool,
    /// How many more commands may be made.
    left: usize,
    kind: Kind,
    size: usize,
    marks: Option<[u8; 64]>,
    mark: usize,
    /// How often an unanswered command is sent again.
    again: usize,
    start_toggle: u8,
}

impl Maker {
    fn new(chance: Chance) -> Self {
        Maker {
            chance,
            lines: Vec::new(),
            telling: true,
            left: usize::MAX,
            kind: Kind::Terminal,
            size: 256,
            marks: None,
            mark: 0,
            again: 0,
            start_toggle: 0,
        }
    }

    fn line(&mut self, line: impl Into<Vec<u8>>) {
        self.lines.push(line.into());
    }

    /// One sending of a command; whether it can have been answered.
    fn sending(&mut self, command: &str) -> bool {
        if self.left == 0 {
            return true;
        }
        self.left -= 1;
        self.line(command);
        if self.telling {
            self.line("T");
        }
        match &self.marks {
            None => true,
            Some(marks) => {
                let mark = marks[self.mark];
                self.mark = (self.mark + 1) % 64;
                mark == b'P'
            }
        }
    }

    /// Sends a command, and again if it is lost, as a unit would.
    fn command(&mut self, command: &str) {
        let mut sendings = self.again;
        while !self.sending(command) && sendings > 0 {
            sendings -= 1;
        }
    }

    fn read(&mut self, address: usize) {
        self.command(&format!("R,{address:04X}"));
    }

    fn write(&mut self, address: usize, byte: u8) {
        self.command(&format!("W,{address:04X},{byte:02X}"));
    }

    fn polls(&mut self, count: usize) {
        for _ in 0..count {
            self.command("P");
        }
    }

    fn acknowledge(&mut self) {
        self.command("A");
    }

    // ------------------------------------------------------ choosing a line

    fn note_marks(&mut self) {
        let marks = self.chance.marks();
        self.line([b"Z,", &marks[..]].concat());
        self.marks = Some(marks);
    }

    fn poke(&mut self, address: usize, byte: u8) {
        self.line(format!("M,{address:04X},{byte:02X}"));
    }

    fn some_pokes(&mut self) {
        for _ in 0..self.chance.from(1, 6) {
            let address = self.address();
            let byte = self.chance.toggle_byte();
            self.poke(address, byte);
        }
        if self.chance.percent(8) {
            // About as many as are noted at most, and many for one address.
            for _ in 0..self.chance.from(56, 66) {
                let address = match self.chance.percent(50) {
                    true => self.chance.from(0x80, 0x84),
                    false => self.address(),
                };
                let byte = self.chance.byte();
                self.poke(address, byte);
            }
        }
    }

    fn state_line(&mut self) {
        self.size = self.chance.size();
        let odd = self.chance.percent(12);
        let mut state = self.any_state(odd);
        if odd && self.chance.percent(60) {
            state = self.nearly_lawful(state.row);
        } else if state.fill != 0 || self.chance.percent(50) {
            for toggle in TOGGLES {
                if self.chance.percent(if state.fill == 0 { 30 } else { 80 }) {
                    let byte = self.chance.toggle_byte();
                    self.poke(toggle, if state.waits == 1 && !odd { 0 } else { byte });
                }
            }
        }
        self.start_toggle = state.fill;
        if self.chance.percent(40) {
            let differs = state.seen.wrapping_add(1);
            self.start_toggle = self.chance.pick(&[state.seen, differs, 0, 0xFF]);
            self.poke(CUSYN, self.start_toggle);
        }
        if self.chance.percent(25) && (state.waits == 0 || odd) {
            self.some_pokes();
        }
        let last = self.chance.digits(8);
        self.line(state.text(&last));
    }

    /// A state that is lawful unless it is to be odd.
    fn any_state(&mut self, odd: bool) -> Beginning {
        let waits = u8::from(self.chance.percent(30));
        let mut state = Beginning {
            size: self.size as u32,
            waits,
            working: 0,
            seen: 0,
            counts: [0; 3],
            row: self.chance.pick(&[0, 1, 2, 127, 128, 253, 254, 255]),
            fill: 0,
        };
        if waits == 0 || odd {
            let (seen, fill) = (self.chance.byte(), self.chance.byte());
            state.working = u8::from(self.chance.percent(50));
            state.seen = self.chance.pick(&[0x00, 0x01, 0xFF, seen]);
            state.counts = std::array::from_fn(|_| self.chance.count());
            state.fill = self.chance.pick(&[0x00, 0x00, 0x00, 0x01, 0xFF, fill]);
        }
        state
    }

    /// A restart waits, and one thing is wrong or none.
    fn nearly_lawful(&mut self, row: u8) -> Beginning {
        const SIZES: [u32; 10] = [0, 1, 38, 39, 255, 32_769, 65_535, 65_536, 65_792, u32::MAX];
        let mut state = Beginning {
            size: self.size as u32,
            waits: 1,
            working: 0,
            seen: 0,
            counts: [0; 3],
            row,
            fill: 0,
        };
        match self.chance.below(8) {
            0 => state.working = 1,
            1 => state.seen = self.chance.pick(&[0x01, 0x80, 0xFF]),
            2 => state.counts[self.chance.below(3)] = self.chance.pick(&[1, u32::MAX, 65_536]),
            3 => state.fill = self.chance.pick(&[0x01, 0xFF]),
            4 => {
                let toggle = self.chance.pick(&TOGGLES);
                let byte = self.chance.toggle_byte();
                self.poke(toggle, byte);
            }
            5 => {
                // All of memory is set but the toggles, or all but two.
                state.fill = self.chance.byte();
                let (cleared, first) = (self.chance.from(2, 3), self.chance.below(3));
                for i in 0..cleared {
                    self.poke(TOGGLES[(first + i) % 3], 0);
                }
            }
            6 => state.size = self.chance.pick(&SIZES),
            _ => {}
        }
        state
    }

    fn begin(&mut self, kind: Kind) {
        self.kind = kind;
        self.start_toggle = 0;
        self.marks = None;
        self.mark = 0;
        self.again = self.chance.pick(&[0, 1, 3, 31]);
        self.note_some();
        match kind {
            Kind::Terminal => {
                self.size = 256;
                self.line("L,terminal");
            }
            Kind::Printer => {
                self.size = 4096;
                let (end, expedited) = (self.chance.digits(4), self.chance.digits(6));
                self.line(format!("L,printer,{end},{expedited}"));
            }
            Kind::State => self.state_line(),
        }
        // Sending again for ever on a line that never answers is of no use.
        let passing = |marks: [u8; 64]| marks.iter().filter(|&&mark| mark == b'P').count();
        if self.marks.is_some_and(|marks| passing(marks) < 8) {
            self.again = self.again.min(3);
        }
        self.line("T");
    }

    /// Notes for the next line, and at times what it ignores or leaves.
    fn note_some(&mut self) {
        const LEAVE_NOTES: [&str; 5] = [
            "L,Terminal",
            "L,terminal,",
            "L,printer,00000000,",
            "L,state,256",
            "Z,P",
        ];
        if self.chance.percent(10) {
            self.some_pokes();
            if self.chance.percent(30) {
                self.note_marks();
            }
            if self.chance.percent(30) {
                self.malformed();
            }
        }
        if self.chance.percent(40) {
            self.note_marks();
        }
        if self.chance.percent(6) {
            let choice = self.chance.pick(&LEAVE_NOTES);
            self.line(choice);
        }
    }

    // ------------------------------------------------------------- commands

    /// An address at or near an edge, or any.
    fn address(&mut self) -> usize {
        let any = self.chance.below(65_536);
        let low = self.chance.below(0x100);
        let inside = self.chance.below(self.size);
        let n = self.size;
        match self.chance.below(5) {
            0..4 => self.chance.pick(&EDGES),
            _ => self.chance.pick(&[
                any,
                low,
                low,
                inside,
                inside,
                n - 2,
                n - 1,
                n - 1,
                n,
                n,
                n + 1,
            ]),
        }
    }

    fn hostile(&mut self) {
        let address = self.address();
        let byte = self.chance.toggle_byte();
        match self.chance.below(3) {
            0 => self.read(address),
            1 => self.write(address, byte),
            _ => {
                self.write(address, byte);
                self.read(address);
            }
        }
    }

    fn tell_event(&mut self) {
        let event = self.chance.digits(6);
        self.line(format!("E,{event}"));
        self.tell();
    }

    fn tell_end(&mut self) {
        let end = self.chance.digits(4);
        self.line(format!("F,{end}"));
        self.tell();
    }

    fn tell(&mut self) {
        if self.telling {
            self.line("T");
        }
    }

    fn new_start_toggle(&mut self) {
        let old = self.start_toggle;
        let any = self.chance.byte();
        let (flipped, more) = (old ^ 1, old.wrapping_add(1));
        self.start_toggle = self
            .chance
            .pick(&[flipped, flipped, more, more, more, any, !old]);
        self.write(CUSYN, self.start_toggle);
    }

    /// The second parameter of a request: how long a printer takes.
    fn second_parameter(&mut self) -> u8 {
        let any = self.chance.byte();
        self.chance.pick(&[
            0,
            0,
            0,
            0,
            0,
            1,
            1,
            2,
            2,
            3,
            4,
            5,
            9,
            if any > 250 { any } else { 7 },
        ])
    }

    /// Writes a request and starts it. `polls` is how many will end it.
    fn request(&mut self) -> usize {
        let second = self.second_parameter();
        if self.chance.percent(70) {
            for place in REQUEST {
                let byte = if place == CUFRP2 {
                    second
                } else {
                    self.chance.byte()
                };
                self.write(place, byte);
            }
        } else if self.kind == Kind::Printer || self.chance.percent(50) {
            self.write(CUFRP2, second);
        }
        self.new_start_toggle();
        self.command("S");
        usize::from(second) + 1
    }

    /// A request from its first byte to the clearing of its toggle.
    fn round(&mut self) {
        if self.chance.percent(30) {
            self.acknowledge();
        }
        if self.kind != Kind::Printer && self.chance.percent(20) {
            self.tell_end();
        }
        let polls = self.request();
        if self.chance.percent(12) {
            self.command("S");
        }
        if self.chance.percent(8) {
            self.new_start_toggle();
            self.command("S");
            if self.chance.percent(70) {
                self.polls(1);
                self.acknowledge();
            }
        }
        self.finish(polls);
        if self.chance.percent(40) {
            self.read_some_status();
        }
        for (toggle, percent) in [(DPSSTAT, 85), (DPASTAT, 60), (EXFAK, 40)] {
            if self.chance.percent(percent) {
                self.write(toggle, 0);
            }
        }
    }

    /// Has the device end its request, which at a printer takes so many polls.
    fn finish(&mut self, polls: usize) {
        if self.kind == Kind::Printer {
            let more = self.chance.pick(&[0, 0, 0, 0, 1, 2]);
            return self.polls(polls + more);
        }
        if self.chance.percent(15) {
            self.polls(1);
        }
        if self.chance.percent(40) {
            self.tell_event();
        }
        if self.chance.percent(85) {
            self.tell_end();
        }
        let polls = self.chance.from(1, 2);
        self.polls(polls);
    }

    fn read_some_status(&mut self) {
        for place in TOGGLES.into_iter().chain(STATUS) {
            if self.chance.percent(50) {
                self.read(place);
            }
        }
    }

    fn clear_toggles(&mut self) {
        for toggle in TOGGLES {
            if self.chance.percent(70) {
                self.write(toggle, 0);
            }
        }
    }

    /// Ends one after the other, until an expedited status is due more than once.
    fn many_ends(&mut self) {
        let ends = self
            .chance
            .pick(&[9, 10, 10, 11, 12, 19, 20, 21, 25, 29, 30, 31, 33, 40]);
        // The expedited status is cleared at once, late, or not at all.
        let clears = self.chance.pick(&[0, 3, 20, 100]);
        let slow = self.chance.percent(30);
        self.write(CUFRP2, 0);
        for _ in 0..ends {
            if slow {
                let second = self.chance.pick(&[0, 1, 2]);
                self.write(CUFRP2, second);
            }
            self.start_toggle = self.start_toggle.wrapping_add(1);
            self.write(CUSYN, self.start_toggle);
            self.command("S");
            self.polls(1);
            if slow {
                self.polls(2);
            }
            if self.chance.percent(97) {
                self.write(DPSSTAT, 0);
            }
            if self.chance.percent(clears) {
                self.write(EXFAK, 0);
            }
            if self.chance.percent(2) {
                self.restart_amid();
            }
        }
        for _ in 0..self.chance.below(4) {
            self.write(EXFAK, 0);
            self.polls(2);
        }
        self.read_some_status();
    }

    /// A restart with or without a request in work.
    fn restart_amid(&mut self) {
        if self.chance.percent(50) {
            self.write(CUSYN, self.start_toggle ^ 0x80);
            self.command("S");
        }
        self.command("X");
        self.polls(1);
        self.acknowledge();
        self.write(CUFRP2, 0);
    }

    fn restart(&mut self) {
        if self.chance.percent(60) {
            self.command("X");
        } else {
            for _ in 0..3 {
                self.new_start_toggle();
                self.command("S");
            }
        }
        if self.kind != Kind::Printer && self.chance.percent(40) {
            self.tell_event();
            self.tell_end();
        }
        if self.chance.percent(50) {
            self.polls(1);
        }
        if self.chance.percent(30) {
            // A request while a restart waits is not taken.
            self.request();
        }
        if self.chance.percent(80) {
            self.acknowledge();
            self.polls(1);
        }
    }

    /// Every byte at a toggle, or at the start toggle.
    fn every_byte(&mut self) {
        let address = self.chance.pick(&[DPASTAT, DPSSTAT, EXFAK, CUSYN]);
        for byte in 0..=255 {
            self.write(address, byte);
            if address == CUSYN && self.chance.percent(30) {
                self.command("S");
            }
        }
    }

    /// Every byte at a toggle of a line that begins so.
    fn every_toggle_byte(&mut self) {
        let toggle = self.chance.pick(&TOGGLES);
        for byte in 0..=255 {
            self.poke(toggle, byte);
            self.poke(CUSYN, byte);
            let (working, seen) = (self.chance.below(2), self.chance.below(2));
            let last = self.chance.digits(8);
            self.line(format!(
                "L,state,256,0,{working},{seen:02X},{last},0,0,0,0,00"
            ));
            self.marks = None;
            self.size = 256;
            self.kind = Kind::State;
            self.tell_event();
            self.tell_end();
            self.polls(1);
            self.write(toggle, 0);
            self.polls(1);
        }
    }

    /// Hundreds of commands in a row, unanswered or not.
    fn long_row(&mut self) {
        let count = self.chance.from(200, 330);
        let n = self.size;
        let command = match self.chance.below(6) {
            0 => format!("R,{n:04X}"),
            1 => format!("W,{n:04X},00"),
            2 => "W,003F,00".to_owned(),
            3 => "W,0000,01".to_owned(),
            4 => "I".to_owned(),
            _ => "P".to_owned(),
        };
        for _ in 0..count {
            self.sending(&command);
        }
        self.command("I");
    }

    fn act(&mut self) {
        match self.chance.below(100) {
            0..35 => self.round(),
            35..47 => self.hostile(),
            47..53 => self.tell_event(),
            53..58 => self.tell_end(),
            58..66 => {
                let count = self.chance.from(1, 5);
                self.polls(count);
            }
            66..73 => self.clear_toggles(),
            73..76 => self.acknowledge(),
            76..80 => {
                for _ in 0..self.chance.from(1, 3) {
                    self.command("S");
                }
            }
            80..84 => self.restart(),
            84..86 => self.command("I"),
            86..88 => self.read_some_status(),
            88..99 => {
                self.malformed();
                self.line("T");
            }
            _ => self.long_row(),
        }
    }

    fn case(&mut self) {
        if self.chance.percent(8) {
            // No line yet.
            for _ in 0..4 {
                self.act_without_line();
            }
        }
        match self.chance.below(50) {
            0 => self.every_toggle_byte(),
            1 => {
                self.begin_any();
                self.acknowledge();
                self.every_byte();
            }
            2 => {
                self.begin_any();
                self.long_row();
            }
            _ => {}
        }
        for _ in 0..self.chance.from(1, 3) {
            self.begin_any();
            if self.kind != Kind::Printer && self.chance.percent(25) {
                self.tell_event();
                self.tell_end();
                self.polls(1);
            }
            if self.chance.percent(90) {
                self.acknowledge();
            }
            if self.kind == Kind::Printer && self.chance.percent(60) {
                self.many_ends();
            }
            for _ in 0..self.chance.from(3, 18) {
                self.act();
            }
        }
    }

    fn begin_any(&mut self) {
        let kind = self
            .chance
            .pick(&[Kind::Terminal, Kind::Printer, Kind::State, Kind::State]);
        self.begin(kind);
    }

    fn act_without_line(&mut self) {
        match self.chance.below(5) {
            0 => self.hostile(),
            1 => self.polls(1),
            2 => self.tell_event(),
            3 => self.tell_end(),
            _ => self.malformed(),
        }
    }

    // ------------------------------------------------------ malformed lines

    /// Some well-formed line, to be spoiled.
    fn well_formed(&mut self) -> Vec<u8> {
        let address = self.address();
        let byte = self.chance.byte();
        let records = (
            self.chance.digits(4),
            self.chance.digits(6),
            self.chance.digits(8),
        );
        let state = Beginning {
            size: self.size as u32,
            waits: byte & 1,
            working: byte >> 1 & 1,
            seen: byte,
            counts: std::array::from_fn(|_| self.chance.count()),
            row: address as u8,
            fill: byte,
        };
        match self.chance.below(16) {
            0 => "P".to_owned(),
            1 => format!("R,{address:04X}"),
            2 | 3 => format!("W,{address:04X},{byte:02X}"),
            4 => "S".to_owned(),
            5 => "A".to_owned(),
            6 => "I".to_owned(),
            7 => "T".to_owned(),
            8 => format!("E,{}", records.1),
            9 => format!("F,{}", records.0),
            10 => format!("M,{address:04X},{byte:02X}"),
            11 => format!("Z,{}", String::from_utf8_lossy(&self.chance.marks())),
            12 => "L,terminal".to_owned(),
            13 => format!("L,printer,{},{}", records.0, records.1),
            _ => state.text(&records.2),
        }
        .into_bytes()
    }

    /// A line that is malformed, mostly: spoiling may make another good one.
    fn malformed(&mut self) {
        let line = match self.chance.below(16) {
            0 | 1 => self.chance.pick(&ODD).into(),
            2 | 3 => self.bad_number(),
            4 => spoil::bad_marks(&mut self.chance),
            5 => spoil::around(&mut self.chance, LONGEST),
            _ => {
                let line = self.well_formed();
                spoil::spoil(&mut self.chance, line)
            }
        };
        self.line(line);
    }

    /// One number of a state replaced by a bad one.
    fn bad_number(&mut self) -> Vec<u8> {
        let mut fields = [
            "256",
            "0",
            "0",
            "00",
            "0000000000000000",
            "0",
            "0",
            "0",
            "0",
            "00",
        ];
        fields[self.chance.pick(&[0, 1, 2, 5, 6, 7, 8])] = self.chance.pick(&spoil::NUMBERS);
        format!("L,state,{}", fields.join(",")).into_bytes()
    }

    /// Text after the last LF.
    fn open_end(&mut self) {
        match self.chance.below(4) {
            0 => self.line(self.lines[self.lines.len() - 2].clone()),
            1 => self.line("P"),
            2 => self.line("\0"),
            _ => {
                let mut line = self.well_formed();
                if self.chance.percent(20) {
                    line.resize(70_000, b'0');
                }
                self.line(line);
            }
        }
        // With nothing after it, the last LF is the end.
        if self.lines.last().is_some_and(Vec::is_empty) {
            self.line("T");
        }
    }

    // ---------------------------------------------------------- many commands

    /// A new line of the maker's kind; over a losing one, what is lost is sent
    /// again.
    fn begin_service(&mut self, losing: bool) {
        self.marks = None;
        self.mark = 0;
        if losing {
            let mut marks = [0; 64];
            marks.fill_with(|| self.chance.pick(b"PPPPPPUH"));
            self.line([b"Z,", &marks[..]].concat());
            self.marks = Some(marks);
            self.again = 31;
        }
        if self.kind == Kind::Terminal {
            self.line("L,terminal");
        } else {
            let (end, expedited) = (self.chance.digits(4), self.chance.digits(6));
            self.line(format!("L,printer,{end},{expedited}"));
        }
    }

    /// The work of a unit that goes well: data, a request, its end.
    fn plain_round(&mut self) {
        for i in 0..16 {
            let byte = self.chance.byte();
            self.write(0x80 + i, byte);
        }
        for place in REQUEST {
            let byte = if place == CUFRP2 {
                self.chance.byte() & 3
            } else {
                self.chance.byte()
            };
            self.write(place, byte);
        }
        self.start_toggle ^= 1;
        self.write(CUSYN, self.start_toggle);
        self.command("S");
        if self.kind == Kind::Terminal {
            self.tell_end();
            if self.chance.percent(30) {
                self.tell_event();
            }
        }
        self.polls(4);
        for place in TOGGLES.into_iter().chain(STATUS) {
            self.read(place);
        }
        for toggle in TOGGLES {
            self.write(toggle, 0);
        }
        self.polls(2);
        self.command("I");
    }
}

/// Terminals and printers in turn, each for ten thousand commands; a `T` line
/// at the end of each.
pub fn write_commands(seed: u64, count: usize, losing: bool) -> io::Result<()> {
    const EACH: usize = 10_000;
    let mut out = BufWriter::new(io::stdout().lock());
    let mut maker = Maker::new(Chance::of_case(seed, 0));
    maker.telling = false;
    let mut done = 0;
    while done < count {
        let each = EACH.min(count - done);
        maker.left = each;
        maker.start_toggle = 0;
        let terminal = (done / EACH).is_multiple_of(2);
        maker.kind = if terminal {
            Kind::Terminal
        } else {
            Kind::Printer
        };
        maker.begin_service(losing);
        maker.acknowledge();
        while maker.left > 0 {
            maker.plain_round();
        }
        maker.line("T");
        for line in maker.lines.drain(..) {
            out.write_all(&line)?;
            out.write_all(b"\n")?;
        }
        done += each;
    }
    out.flush()
}

#[cfg(test)]
mod tests {
    use super::*;

    #[test]
    fn a_case_depends_on_seed_and_number_alone() {
        for number in 0..20 {
            assert_eq!(case(5, number).lines, case(5, number).lines);
            assert_ne!(case(5, number).lines, case(6, number).lines);
        }
    }

    #[test]
    fn no_line_of_a_case_holds_an_lf() {
        for number in 0..200 {
            let made = case(7, number);
            assert!(made.lines.iter().all(|line| !line.contains(&b'\n')));
            assert_eq!(made.lines[0], FENCE.as_bytes());
        }
    }

    #[test]
    fn numbers_keep_to_their_bounds() {
        let mut chance = Chance::of_case(1, 1);
        let mut seen = [false; 5];
        for _ in 0..1000 {
            seen[chance.below(5)] = true;
            assert!((3..=4).contains(&chance.from(3, 4)));
        }
        assert_eq!(seen, [true; 5]);
    }
}
