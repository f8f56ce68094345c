//! Seeded lists of calls on a unit, as docs/UNITRUN.md has them.

use std::io::{self, BufWriter, Write};

use crate::running::Case;
use crate::spoil;
use crate::unit_maker::{Maker, Record, State};
use second::chance::Chance;

const TOGGLES: [u16; 3] = [0x0000, 0x0001, 0x0026];
const ATTACHMENTS: [&str; 3] = ["bsc", "local", "sna"];
/// A second parameter of WCUS that is listed, and some that are not.
const STATUS_REPORTS: [u8; 9] = [0x01, 0x10, 0x42, 0x51, 0x5C, 0x71, 0x00, 0x43, 0x5D];
/// Codes that need an online terminal, and those that do not.
const FOR_TERMINALS: [u8; 6] = [0x03, 0x06, 0x07, 0x08, 0x0A, 0x0B];
const FOR_ALL: [u8; 7] = [0x01, 0x02, 0x04, 0x05, 0x09, 0x0C, 0x0D];

/// Lines that are nearly good.
const ODD: [&str; 24] = [
    "",
    ",",
    "?,13",
    "N,",
    "N,00",
    "U,BSC",
    "U,bsc,",
    "A,0",
    "A,000",
    "A,0A",
    "A,+1",
    "P,00,",
    "Q,00,0100000000FF0000",
    "Q,00,0100000000FF0080,0",
    "Q,00,0100000000FF0080,5a",
    "G,00,0080,01,1",
    "G,00,0080,1,8193",
    "G,00,0080,4294967296,1",
    "G,00,0080,,1",
    "L,32,terminal",
    "L,terminal",
    "R,32",
    "Y,P",
    "END",
];

/// The case of this number; with some text after its last LF, at times.
pub fn case(seed: u64, number: u64) -> Case {
    let mut player = Player::new(Chance::of_case(seed ^ 0x0075_6E69_7473, number));
    player.play();
    let open_end = player.chance.percent(3);
    if open_end {
        let line = match player.chance.percent(30) {
            true => b"N".to_vec(),
            false => player.well_formed(),
        };
        player.maker.line(line);
    }
    Case {
        open_end,
        ..player.maker.into_case()
    }
}

#[derive(Clone, Copy, PartialEq, Eq)]
enum Kind {
    Terminal,
    Printer,
    State,
}

struct Player {
    chance: Chance,
    maker: Maker,
    /// The ports in use.
    ports: Vec<u8>,
    kinds: [Kind; 32],
    sizes: [usize; 32],
}

impl Player {
    fn new(mut chance: Chance) -> Self {
        let attachment = chance.pick(&ATTACHMENTS);
        let count = chance.pick(&[1, 1, 2, 2, 3, 5]);
        let mut ports: Vec<u8> = (0..count)
            .map(|_| {
                let any = chance.below(32) as u8;
                chance.pick(&[0, 1, 15, 30, 31, 31, any, any])
            })
            .collect();
        if chance.percent(4) {
            ports = (0..32).collect();
        }
        Player {
            chance,
            maker: Maker::new(attachment),
            ports,
            kinds: [Kind::Terminal; 32],
            sizes: [256; 32],
        }
    }

    fn play(&mut self) {
        self.begin_lines();
        let acts = match self.chance.below(50) {
            0 => 2000,
            _ => self.chance.from(20, 160),
        };
        for _ in 0..acts {
            let port = self.chance.pick(&self.ports);
            self.act(port);
            self.act_beside();
        }
        self.maker.lines("N N");
        self.maker.all_records();
    }

    fn begin_lines(&mut self) {
        for port in self.ports.clone() {
            if self.chance.percent(95) {
                self.begin_line(port);
            }
        }
    }

    /// Now and then something that is not for the port in hand.
    fn act_beside(&mut self) {
        match self.chance.below(1000) {
            0..40 => {
                self.maker.line("N");
            }
            40..60 => self.maker.all_records(),
            60..80 => self.malformed(),
            80..90 => {
                let line = self.well_formed();
                self.maker.line(line);
            }
            90 => {
                // Notes that the new unit forgets.
                self.many_notes();
                let attachment = self.chance.pick(&ATTACHMENTS);
                self.maker.line(format!("U,{attachment}"));
                self.begin_lines();
            }
            _ => {}
        }
    }

    // ------------------------------------------------------ choosing a line

    /// A line that waits for its restart to be acknowledged.
    fn begin_line(&mut self, port: u8) {
        if self.chance.percent(45) {
            self.note_marks();
        }
        if self.chance.percent(3) {
            self.many_notes();
        }
        let kind = self
            .chance
            .pick(&[Kind::Terminal, Kind::Terminal, Kind::Printer, Kind::State]);
        let size = match kind {
            Kind::Terminal => 256,
            Kind::Printer => 4096,
            Kind::State => self.chance.size(),
        };
        let line = match kind {
            Kind::Terminal => "terminal".to_owned(),
            Kind::Printer => format!(
                "printer,{},{}",
                self.chance.digits(4),
                self.chance.digits(6)
            ),
            Kind::State => self.waiting_state(size),
        };
        self.maker.line(format!("L,{port:02},{line}"));
        self.kinds[usize::from(port)] = kind;
        self.sizes[usize::from(port)] = size;
    }

    /// About as many bytes as are noted at most. What is malformed leaves them.
    fn many_notes(&mut self) {
        for _ in 0..self.chance.from(60, 66) {
            let address = self.chance.from(0x80, 0x101);
            self.maker.line(format!("M,{address:04X},A5"));
        }
        if self.chance.percent(20) {
            let line = self
                .chance
                .pick(&["L,00,Terminal", "L,00,state,256", "L,32,terminal"]);
            self.maker.line(line);
        }
    }

    /// Marks that mostly let a call through, or any.
    fn note_marks(&mut self) {
        if self.chance.percent(25) {
            return self.note_windows();
        }
        let mut marks = self.chance.marks();
        if self.chance.percent(60) {
            marks.fill_with(|| self.chance.pick(b"PPPPPPPUUHHH"));
        }
        let letter = self.chance.pick(b"ZZZZZY");
        self.note(letter, &marks);
        if self.chance.percent(8) {
            let marks = self.chance.marks();
            self.note(b'Y', &marks);
        }
    }

    /// Two losing lines that lose 32 in a row, but only now and then: between
    /// that whole calls get through.
    fn note_windows(&mut self) {
        for (letter, mark, length) in [(b'Z', b"UH"[self.chance.below(2)], 12), (b'Y', b'U', 20)] {
            let mut marks = [b'P'; 64];
            let first = self.chance.below(64 - length);
            marks[first..first + length].fill(mark);
            self.note(letter, &marks);
        }
    }

    /// Marks that lose a command so often that a call just goes on, or is
    /// broken off.
    fn note_window(&mut self) {
        let length = self.chance.pick(&[31, 32, 33]);
        let mark = self.chance.pick(b"UH");
        let first = self.chance.below(20);
        let mut marks = [b'P'; 64];
        marks[first..first + length].fill(mark);
        self.note(b'Z', &marks);
    }

    fn note(&mut self, letter: u8, marks: &[u8; 64]) {
        self.maker.line([&[letter, b','], &marks[..]].concat());
    }

    fn waiting_state(&mut self, size: usize) -> String {
        let fill = self.chance.byte();
        for toggle in TOGGLES {
            self.maker.line(format!("M,{toggle:04X},00"));
        }
        let (last, row) = (self.chance.digits(8), self.chance.byte());
        format!("state,{size},1,0,00,{last},0,0,0,{row},{fill:02X}")
    }

    /// A line in any state in place of the one there is, mostly one that goes
    /// with the record.
    fn exchange(&mut self, port: u8, record: &Record) {
        match self.chance.below(10) {
            0..3 => self.note_marks(),
            3..7 => self.note_window(),
            _ => {}
        }
        for toggle in TOGGLES {
            let byte = self.chance.toggle_byte();
            let byte = if self.chance.percent(70) {
                byte & 1
            } else {
                byte
            };
            self.maker.line(format!("M,{toggle:04X},{byte:02X}"));
        }
        let event = self.event(record);
        for (place, byte) in [0x07, 0x08, 0x09, 0x0A, 0x0B, 0x06].into_iter().zip(event) {
            self.maker.line(format!("M,{place:04X},{byte:02X}"));
        }
        let any = self.chance.byte();
        let seen = self
            .chance
            .pick(&[record.cusyn, record.cusyn, record.cusyn, any]);
        let size = self.chance.size();
        let working = self.chance.below(2);
        let counts: [u32; 3] = std::array::from_fn(|_| self.chance.count());
        let [taken, events, expedited] = counts;
        let (last, fill) = (self.chance.digits(8), self.chance.byte());
        self.maker.line(format!("M,0045,{:02X}", record.cusyn));
        self.maker.line(format!(
            "L,{port:02},state,{size},0,{working},{seen:02X},{last},{taken},{events},{expedited},0,{fill:02X}"
        ));
        self.kinds[usize::from(port)] = Kind::State;
        self.sizes[usize::from(port)] = size;
    }

    // -------------------------------------------------------------- the acts

    fn act(&mut self, port: u8) {
        let record = self.maker.record(port);
        if self.chance.percent(8) {
            return self.any_call(port, &record);
        }
        if self.chance.percent(2) {
            return self.exchange(port, &record);
        }
        match record.state {
            State::Unconfigured => self.configure(port),
            State::Disconnected => match self.chance.below(20) {
                0 => self.configure(port),
                1 => self.begin_line(port),
                2 => self.any_call(port, &record),
                _ => self.maker.call(port, format!("A,{port:02}")),
            },
            State::Idle | State::Active => self.serve(port, &record),
        }
    }

    /// A connected port: what is marked first, then something new.
    fn serve(&mut self, port: u8, record: &Record) {
        let marked = record.expedited || record.ended || record.asynchronous;
        if marked && self.chance.percent(80) {
            let call = match (record.expedited, record.ended) {
                (true, _) => format!("X,{port:02},{}", self.chance.digits(4)),
                (_, true) => format!("K,{port:02}"),
                _ => format!("V,{port:02}"),
            };
            return self.maker.call(port, call);
        }
        let idle = record.state == State::Idle;
        match self.chance.below(100) {
            0..5 if idle && self.kinds[usize::from(port)] == Kind::Printer => self.many_ends(port),
            0..45 if idle => self.request(port, record),
            45..55 if idle => self.fetch(port),
            0..55 => {
                self.tell_end(port);
                self.poll(port);
            }
            55..75 => {
                self.tell_event(port, record);
                self.poll(port);
            }
            75..97 => self.poll(port),
            _ => self.maker.call(port, format!("D,{port:02}")),
        }
    }

    /// Ends one after the other, until an expedited status is due.
    fn many_ends(&mut self, port: u8) {
        for _ in 0..self.chance.from(5, 12) {
            self.maker.lines(&format!(
                "Q,{port:02},0100000000FF0000, P,{port:02} K,{port:02}"
            ));
        }
        self.poll(port);
    }

    fn poll(&mut self, port: u8) {
        self.maker.call(port, format!("P,{port:02}"));
    }

    fn tell_end(&mut self, port: u8) {
        if self.kinds[usize::from(port)] != Kind::Printer || self.chance.percent(2) {
            let end = self.chance.digits(4);
            self.maker.line(format!("F,{port:02},{end}"));
        }
    }

    fn tell_event(&mut self, port: u8, record: &Record) {
        if self.kinds[usize::from(port)] != Kind::Printer || self.chance.percent(2) {
            let event: String = self
                .event(record)
                .map(|byte| format!("{byte:02X}"))
                .concat();
            self.maker.line(format!("E,{port:02},{event}"));
        }
    }

    /// An event, mostly one that may be allowed.
    fn event(&mut self, record: &Record) -> [u8; 6] {
        let mut event: [u8; 6] = std::array::from_fn(|_| self.chance.byte());
        let terminal = self.terminal(record);
        let map = self.chance.byte() & 0xF8;
        let few = self.chance.pick(&[0x80, 0xC0, 0x40]);
        let some_kind = self.chance.from(1, 4) as u8;
        // What must have a certain value for the event: the first bytes, and
        // the terminal's address.
        let (first, last): (&[u8], _) = match self.chance.below(20) {
            0 => (&[0x20, some_kind, map, map & 0xF0], 0xFF),
            1 => (&[0x20, 3, map, map & 0xF0], terminal),
            2 => (&[0x22], terminal),
            3 => (&[0x24], map),
            4 => (&[0x32], map),
            5 => (&[0x26, some_kind & 3, map], map),
            6..9 => (&[0x28, 1, few], map),
            9 => (&[0x28, 1, map], map),
            10 => (&[0x28, 2, 0], map),
            11 => (&[0x2A], map),
            12..19 => (&[self.chance.pick(&[0x2C, 0x2E, 0x30, 0x34])], map),
            _ => return event,
        };
        event[..first.len()].copy_from_slice(first);
        event[5] = last;
        event
    }

    /// An address: of one of the port's terminals, none, or any.
    fn terminal(&mut self, record: &Record) -> u8 {
        let any = self.chance.byte();
        let [first, second, third, ..] = record.addresses;
        self.chance
            .pick(&[first, first, first, second, second, third, 0xFF, any])
    }

    fn configure(&mut self, port: u8) {
        let mut addresses: [u8; 5] = std::array::from_fn(|i| 0x40 + i as u8);
        for address in &mut addresses[1..] {
            let any = self.chance.byte();
            *address = self
                .chance
                .pick(&[*address, *address, *address, 0xFF, 0xFF, any]);
        }
        match self.chance.below(20) {
            0 => addresses = [0xFF; 5],
            1 => addresses[self.chance.below(5)] = 0x40,
            2 => addresses[self.chance.below(5)] = 0xFF,
            _ => {}
        }
        let addresses: String = addresses.map(|byte| format!("{byte:02X}")).concat();
        self.maker.call(port, format!("C,{port:02},{addresses}"));
    }

    fn request(&mut self, port: u8, record: &Record) {
        let any = self.chance.byte();
        let code = match self.chance.below(10) {
            0..4 if record.online != 0 => self.chance.pick(&FOR_TERMINALS),
            0..8 => self.chance.pick(&FOR_ALL),
            8 => self.chance.from(1, 13) as u8,
            _ => self.chance.pick(&[0x00, 0x0E, 0xFF, any]),
        };
        let first = self.chance.pick(&STATUS_REPORTS);
        let second = self.chance.pick(&[0, 0, 0, 0, 1, 1, 2, 3, 9]);
        let terminal = self.terminal(record);
        let (address, length) = self.place(port);
        let data = self.chance.digits(length);
        let rest = self.chance.digits(2);
        self.maker.call(
            port,
            format!("Q,{port:02},{code:02X}{first:02X}{second:02X}{rest}{terminal:02X}{address:04X},{data}"),
        );
    }

    /// An address and a length, mostly within the data area and short.
    fn place(&mut self, port: u8) -> (usize, usize) {
        let size = self.sizes[usize::from(port)];
        let room = size - 0x80;
        let any = self.chance.below(0x10000);
        let inside = self.chance.from(0x80, size - 1);
        match self.chance.below(40) {
            0..10 => (self.chance.pick(&[0x80, inside, any, 0, 0xFFFF]), 0),
            10..30 => (0x80, self.chance.from(1, 20)),
            30..33 => (inside, self.chance.from(1, size - inside).min(40)),
            33 => (0x80, room.min(4096)),
            34 => (0x80, (room + 1).min(4100)),
            35 => (size - 1, self.chance.from(1, 2)),
            36 => (
                self.chance.pick(&[0x7F, size, any, 0xFFFF]),
                self.chance.from(1, 2),
            ),
            37 => (size - 16, self.chance.from(15, 17)),
            38 => (0x80, self.chance.pick(&[4096, 4097, 4100])),
            _ => (any, self.chance.from(1, 30)),
        }
    }

    fn fetch(&mut self, port: u8) {
        let (address, length) = self.place(port);
        let any = self.chance.below(8193);
        let huge = self.chance.count() as usize;
        let length = self
            .chance
            .pick(&[length, length, length, length, length, huge]);
        let near = length.min(8191);
        let size = self
            .chance
            .pick(&[near, near, near + 1, near.max(1) - 1, 0, 16, 17, any, 8192]);
        self.maker
            .call(port, format!("G,{port:02},{address:04X},{length},{size}"));
    }

    /// A call that need not go with the record.
    fn any_call(&mut self, port: u8, record: &Record) {
        let above = self.chance.from(32, 99) as u8;
        let shown = if self.chance.percent(10) { above } else { port };
        let response = self.chance.digits(4);
        match self.chance.below(10) {
            0 => self.configure(port),
            1 => self.maker.call(port, format!("A,{shown:02}")),
            2 => self.maker.call(port, "N"),
            3 => self.maker.call(port, format!("P,{shown:02}")),
            4 => self.request(port, record),
            5 => self.maker.call(port, format!("K,{shown:02}")),
            6 => self.maker.call(port, format!("V,{shown:02}")),
            7 => self.maker.call(port, format!("X,{shown:02},{response}")),
            8 => self.fetch(port),
            _ => self.maker.call(port, format!("D,{shown:02}")),
        }
    }

    // ------------------------------------------------------ malformed lines

    /// Some well-formed line, for any port.
    fn well_formed(&mut self) -> Vec<u8> {
        let port = self.chance.pick(&[0, 1, 9, 10, 31, 32, 99]);
        let address = self.chance.below(0x10000);
        let digits = |chance: &mut Chance, count| chance.digits(count);
        let chance = &mut self.chance;
        match chance.below(18) {
            0 => format!("C,{port:02},{}", digits(chance, 5)),
            1 => format!("A,{port:02}"),
            2 => "N".to_owned(),
            3 => format!("P,{port:02}"),
            4 => format!("Q,{port:02},{},{}", digits(chance, 8), digits(chance, 3)),
            5 => format!("K,{port:02}"),
            6 => format!("V,{port:02}"),
            7 => format!("X,{port:02},{}", digits(chance, 4)),
            8 => format!("G,{port:02},{address:04X},{},17", chance.count()),
            9 => format!("D,{port:02}"),
            10 => format!("E,{port:02},{}", digits(chance, 6)),
            11 => format!("F,{port:02},{}", digits(chance, 4)),
            12 => format!("R,{port:02}"),
            13 => format!("T,{port:02}"),
            14 => format!("M,{address:04X},00"),
            15 => format!(
                "L,{port:02},printer,{},{}",
                digits(chance, 4),
                digits(chance, 6)
            ),
            16 => format!("Y,{}", String::from_utf8_lossy(&chance.marks())),
            _ => format!(
                "L,{port:02},state,256,0,1,00,{},1,2,3,4,00",
                digits(chance, 8)
            ),
        }
        .into_bytes()
    }

    /// A line that is malformed, mostly.
    fn malformed(&mut self) {
        let longest = format!("Q,00,0100000000FF0080,{}", "5A".repeat(4100));
        let line = match self.chance.below(10) {
            0..3 => self.chance.pick(&ODD).into(),
            3 => spoil::bad_marks(&mut self.chance),
            4 if self.chance.percent(30) => spoil::around(&mut self.chance, &longest),
            5 => {
                let number = self.chance.pick(&spoil::NUMBERS);
                format!("G,00,0080,{number},16").into_bytes()
            }
            _ => {
                let line = self.well_formed();
                spoil::spoil(&mut self.chance, line)
            }
        };
        self.maker.line(line);
    }
}

// ------------------------------------------------------------------ many calls

/// A full unit in service, of which only the calls are counted.
struct Service {
    chance: Chance,
    maker: Maker,
    left: usize,
}

impl Service {
    fn call(&mut self, call: String) -> String {
        if self.left == 0 {
            return String::new();
        }
        self.left -= 1;
        self.maker.line(call).to_owned()
    }

    /// Terminals at even ports, printers at odd ones, all connected.
    fn open(&mut self, losing: bool) {
        for port in 0..32 {
            if losing {
                let mut marks = [0; 64];
                marks.fill_with(|| self.chance.pick(b"PPPPPPUH"));
                self.maker.line([b"Z,", &marks[..]].concat());
            }
            let line = if port % 2 == 0 {
                "terminal".to_owned()
            } else {
                format!(
                    "printer,{},{}",
                    self.chance.digits(4),
                    self.chance.digits(6)
                )
            };
            self.maker.line(format!("L,{port:02},{line}"));
            self.call(format!("C,{port:02},4041FFFFFF"));
            self.call(format!("A,{port:02}"));
        }
    }

    /// Serves the port whose turn it is: polls it, sees to what is marked, and
    /// gives it something to do if it is idle.
    fn turn(&mut self) {
        let answer = self.call("N".to_owned());
        let Some(Ok(port)) = answer.strip_prefix("N,").map(str::parse::<u8>) else {
            return;
        };
        let terminal = port.is_multiple_of(2);
        if terminal {
            let end = self.chance.digits(4);
            self.maker.line(format!("F,{port:02},{end}"));
            if self.chance.percent(20) {
                let event = self.chance.digits(4);
                self.maker.line(format!("E,{port:02},2C01{event}"));
            }
        }
        self.call(format!("P,{port:02}"));
        if self.maker.record(port).expedited {
            let response = self.chance.digits(4);
            self.call(format!("X,{port:02},{response}"));
        }
        let record = self.maker.record(port);
        if record.ended {
            self.call(format!("K,{port:02}"));
        }
        if record.asynchronous {
            self.call(format!("V,{port:02}"));
        }
        match self.maker.record(port).state {
            State::Idle => self.employ(port),
            State::Active => {}
            _ => {
                self.call(format!("A,{port:02}"));
            }
        }
    }

    fn employ(&mut self, port: u8) {
        if self.chance.percent(20) {
            self.call(format!("G,{port:02},0080,32,32"));
        }
        let (second, length) = (self.chance.below(3), self.chance.from(8, 64));
        let data = self.chance.digits(length);
        self.call(format!("Q,{port:02},0400{second:02X}0000FF0080,{data}"));
    }
}

/// A full unit, made anew after every so many calls; a `T` line for each port at
/// the end of each.
pub fn write_calls(seed: u64, count: usize, losing: bool) -> io::Result<()> {
    const EACH: usize = 20_000;
    let mut out = BufWriter::new(io::stdout().lock());
    let mut service = Service {
        chance: Chance::of_case(seed, 0),
        maker: Maker::new("bsc"),
        left: 0,
    };
    let mut done = 0;
    while done < count {
        let each = EACH.min(count - done);
        service.left = each;
        service.maker.line("U,local");
        service.open(losing);
        while service.left > 0 {
            service.turn();
        }
        for port in 0..32 {
            service.maker.line(format!("T,{port:02}"));
        }
        for line in service.maker.lines.drain(..) {
            out.write_all(&line)?;
            out.write_all(b"\n")?;
        }
        done += each;
    }
    out.flush()
}

#[cfg(test)]
mod tests {
    use super::*;

    #[test]
    fn a_case_depends_on_seed_and_number_alone() {
        for number in 0..10 {
            assert_eq!(case(5, number).lines, case(5, number).lines);
            assert_ne!(case(5, number).lines, case(6, number).lines);
        }
    }

    #[test]
    fn every_case_begins_with_a_new_unit_and_no_line_holds_an_lf() {
        for number in 0..50 {
            let made = case(7, number);
            assert!(made.lines[0].starts_with(b"U,"));
            assert!(made.lines.iter().all(|line| !line.contains(&b'\n')));
        }
    }
}
