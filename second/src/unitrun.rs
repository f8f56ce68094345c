//! One unit on calls given as text, as docs/UNITRUN.md says.

use crate::choice::{self, Choice, Notes};
use crate::device;
use crate::law::{Counted, Tally};
use crate::layout::{Event, Expedited, Request, Synchronous};
use crate::lines::{Command, Line};
use crate::stream;
use crate::text::{self, Fields, put_bytes, say};
use crate::unit::{Addresses, Answer, Attachment, Disconnection, Ending, Marks, PORTS, Port, Unit};

/// A request in text has at most so many bytes of data.
const MOST_DATA: usize = 4100;
/// The largest buffer that a fetch in text asks for.
const MOST_BUFFER: u32 = 8192;
/// What a buffer is filled with before a fetch.
const FILLER: u8 = 0xEE;
/// Of a buffer, so many bytes at most are shown.
const FRONT: usize = 16;

/// A call with its arguments. The data of a request is kept beside it.
enum Call {
    Configure(Addresses),
    Attach,
    Poll,
    Request(Request),
    Collect,
    Take,
    Expedite([u8; 4]),
    Fetch {
        address: u16,
        length: u32,
        size: u32,
    },
    Drop,
}

impl Call {
    /// Reads what stands after the port. The data of a request goes to `data`.
    fn read(letter: u8, rest: &[u8], data: &mut Vec<u8>) -> Option<Call> {
        Fields::whole(rest, |fields| match letter {
            b'A' => Some(Call::Attach),
            b'P' => Some(Call::Poll),
            b'K' => Some(Call::Collect),
            b'V' => Some(Call::Take),
            b'D' => Some(Call::Drop),
            _ => {
                fields.comma()?;
                Call::read_arguments(letter, fields, data)
            }
        })
    }

    fn read_arguments(letter: u8, fields: &mut Fields, data: &mut Vec<u8>) -> Option<Call> {
        match letter {
            b'C' => fields.bytes().map(Call::Configure),
            b'X' => fields.bytes().map(Call::Expedite),
            b'Q' => {
                let request = fields.bytes()?;
                fields.comma()?;
                fields.data(MOST_DATA, data)?;
                Some(Call::Request(request))
            }
            b'G' => {
                let address = fields.address()?;
                fields.comma()?;
                let length = fields.number(u32::MAX)?;
                fields.comma()?;
                let size = fields.number(MOST_BUFFER)?;
                Some(Call::Fetch {
                    address,
                    length,
                    size,
                })
            }
            _ => None,
        }
    }

    fn counted(&self) -> Counted {
        match self {
            Call::Attach => Counted::Attach,
            Call::Request(request) => Counted::Request(*request),
            Call::Collect => Counted::Collect,
            Call::Take => Counted::Take,
            Call::Expedite(_) => Counted::Expedite,
            Call::Configure(_) | Call::Poll | Call::Fetch { .. } | Call::Drop => Counted::Other,
        }
    }
}

/// What a call that succeeded hands over.
enum Values {
    None,
    Marks(Marks),
    Synchronous(Synchronous),
    Event(Event),
    Expedited(Expedited),
}

impl Values {
    fn put(&self, out: &mut Vec<u8>) {
        match self {
            Values::None => {}
            Values::Marks(marks) => {
                out.push(b',');
                put_marks(out, marks);
            }
            Values::Synchronous(record) => put_field(out, record),
            Values::Event(record) | Values::Expedited(record) => put_field(out, record),
        }
    }
}

/// One run: the unit, its lines and the notes for the next line.
pub struct Session {
    unit: Unit,
    /// The lines of the ports, and last one for the ports that are none.
    lines: [Option<Line>; PORTS + 1],
    notes: Notes,
    data: Vec<u8>,
    buffer: Vec<u8>,
    checks: Option<Checks>,
}

/// The law, checked after every call at every port.
#[derive(Default)]
struct Checks {
    tallies: [Tally; PORTS],
    calls: u64,
    /// The first fault: after which call, at which port, and what it is.
    fault: Option<(u64, usize, &'static str)>,
}

impl Checks {
    fn check(&mut self, unit: &Unit, lines: &[Option<Line>]) {
        self.calls += 1;
        if self.fault.is_some() {
            return;
        }
        let ports = self.tallies.iter().zip(unit.ports()).zip(lines);
        self.fault = ports.enumerate().find_map(|(at, ((tally, port), line))| {
            let fault = tally.fault(port, line.as_ref())?;
            Some((self.calls, at, fault))
        });
    }
}

impl stream::Session for Session {
    const LONGEST: usize = b"Q,00,0000000000000000,".len() + 2 * MOST_DATA;

    fn answer(&mut self, line: &[u8], out: &mut Vec<u8>) {
        if self.obey(line, out).is_none() {
            text::refuse(out);
        }
    }
}

impl Session {
    /// With `checking`, the law is checked after every call.
    pub fn new(checking: bool) -> Self {
        let mut session = Session {
            unit: Unit::new(Attachment::Bsc),
            lines: [const { None }; PORTS + 1],
            notes: Notes::new(),
            data: Vec::new(),
            buffer: Vec::new(),
            checks: checking.then(Checks::default),
        };
        session.lines[PORTS] = Some(Line::terminal(device::Memory::default()));
        session
    }

    /// How many calls were checked, and the first fault if there was one.
    pub fn verdict(&self) -> Option<Result<u64, String>> {
        let checks = self.checks.as_ref()?;
        Some(match checks.fault {
            None => Ok(checks.calls),
            Some((call, port, fault)) => Err(format!("after call {call}, port {port:02}: {fault}")),
        })
    }

    /// `None` if the line is malformed; nothing has then changed, and nothing
    /// has been written.
    fn obey(&mut self, line: &[u8], out: &mut Vec<u8>) -> Option<()> {
        match *line {
            [b'N'] => self.turn(out),
            [b'U', b',', ref rest @ ..] => self.begin(rest, out),
            [letter @ (b'M' | b'Y' | b'Z'), b',', ref rest @ ..] => self.note(letter, rest, out),
            [
                letter,
                b',',
                tens @ b'0'..=b'9',
                ones @ b'0'..=b'9',
                ref rest @ ..,
            ] => {
                let port = 10 * (tens - b'0') + (ones - b'0');
                match letter {
                    b'E' | b'F' | b'L' => self.tell_or_choose(letter, port, rest, out),
                    b'R' | b'T' if rest.is_empty() => self.ask(letter, port, out),
                    _ => self.call(letter, port, rest, out),
                }
            }
            _ => None,
        }
    }

    fn turn(&mut self, out: &mut Vec<u8>) -> Option<()> {
        let port = self.unit.turn();
        self.check();
        out.extend_from_slice(b"N,");
        match port {
            Some(port) => put_two(out, port as u8),
            None => out.extend_from_slice(b"none"),
        }
        say(out, b"\n")
    }

    fn note(&mut self, letter: u8, rest: &[u8], out: &mut Vec<u8>) -> Option<()> {
        match letter {
            b'M' => self.notes.note_byte(rest)?,
            b'Y' => self.notes.note_outer_marks(rest)?,
            _ => self.notes.note_marks(rest)?,
        }
        out.push(letter);
        say(out, b",noted\n")
    }

    /// A new unit, with nothing left of the one before.
    fn begin(&mut self, attachment: &[u8], out: &mut Vec<u8>) -> Option<()> {
        self.unit = Unit::new(match attachment {
            b"bsc" => Attachment::Bsc,
            b"local" => Attachment::Local,
            b"sna" => Attachment::Sna,
            _ => return None,
        });
        self.lines[..PORTS].fill_with(|| None);
        self.notes = Notes::new();
        if let Some(checks) = &mut self.checks {
            checks.tallies = Default::default();
        }
        say(out, b"U,made\n")
    }

    /// Shows the record of a port, or what its line tells.
    fn ask(&mut self, letter: u8, port: u8, out: &mut Vec<u8>) -> Option<()> {
        let at = usize::from(port);
        let record = self.unit.ports().get(at)?;
        if letter == b'R' {
            put_head(out, letter, port);
            put_record(out, record);
        } else {
            let line = self.lines[at].as_mut()?;
            put_head(out, letter, port);
            choice::put_telling(out, line);
        }
        say(out, b"\n")
    }

    fn tell_or_choose(
        &mut self,
        letter: u8,
        port: u8,
        rest: &[u8],
        out: &mut Vec<u8>,
    ) -> Option<()> {
        let rest = rest.strip_prefix(b",")?;
        let line = self.lines[..PORTS].get_mut(usize::from(port))?;
        match letter {
            b'E' => {
                let event = Fields::whole(rest, Fields::bytes)?;
                line.as_mut()?.tell_event(event)?;
            }
            b'F' => {
                let end = Fields::whole(rest, Fields::bytes)?;
                line.as_mut()?.tell_end(end)?;
            }
            _ => return self.choose(port, Choice::read(rest)?, out),
        }
        put_head(out, letter, port);
        say(out, b",told\n")
    }

    /// Ends the line of a port and begins another.
    fn choose(&mut self, port: u8, choice: Choice, out: &mut Vec<u8>) -> Option<()> {
        let line = &mut self.lines[usize::from(port)];
        let memory = line.take().map(Line::into_memory).unwrap_or_default();
        *line = self.notes.make(choice, memory).ok();
        put_head(out, b'L', port);
        let made = line.is_some();
        if let Some(checks) = &mut self.checks {
            checks.tallies[usize::from(port)].exchange_line();
        }
        say(out, if made { b",made\n" } else { b",none\n" })
    }

    fn call(&mut self, letter: u8, port: u8, rest: &[u8], out: &mut Vec<u8>) -> Option<()> {
        let call = Call::read(letter, rest, &mut self.data)?;
        let answer = self.perform(port, &call)?;
        if let Some(checks) = &mut self.checks
            && let Some(tally) = checks.tallies.get_mut(usize::from(port))
        {
            tally.note(call.counted(), answer.as_ref().map(|_| ()).map_err(|e| *e));
        }
        self.check();
        put_head(out, letter, port);
        match &answer {
            Ok(values) => {
                out.extend_from_slice(b",00");
                values.put(out);
            }
            Err(ending) => put_ending(out, ending),
        }
        if let Call::Fetch { .. } = call {
            put_field(out, &device::fnv1a(&self.buffer).to_be_bytes());
            put_field(out, &self.buffer[..self.buffer.len().min(FRONT)]);
        }
        say(out, b"\n")
    }

    /// `None` where the call needs a line and the port has none.
    fn perform(&mut self, port: u8, call: &Call) -> Option<Answer<Values>> {
        let unit = &mut self.unit;
        if let Call::Configure(addresses) = call {
            return Some(unit.configure(port, *addresses).map(|()| Values::None));
        }
        // A port that is none is refused, whatever the line.
        let line = self.lines[usize::from(port).min(PORTS)].as_mut()?;
        Some(match call {
            Call::Configure(_) => unreachable!("it needs no line"),
            Call::Attach => unit.attach(port, line).map(|()| Values::None),
            Call::Poll => unit.poll(port, line).map(Values::Marks),
            Call::Request(request) => {
                let done = unit.request(port, request, &self.data, line);
                done.map(|()| Values::None)
            }
            Call::Collect => unit.collect(port, line).map(Values::Synchronous),
            Call::Take => unit.take(port, line).map(Values::Event),
            Call::Expedite(response) => unit.expedite(port, response, line).map(Values::Expedited),
            Call::Fetch {
                address,
                length,
                size,
            } => {
                self.buffer.clear();
                self.buffer.resize(*size as usize, FILLER);
                let length = *length as usize;
                let done = unit.fetch(port, *address, length, &mut self.buffer, line);
                done.map(|()| Values::None)
            }
            Call::Drop => Err(unit.drop(port, line)),
        })
    }

    fn check(&mut self) {
        if let Some(checks) = &mut self.checks {
            checks.check(&self.unit, &self.lines);
        }
    }
}

/// Two decimal digits.
fn put_two(out: &mut Vec<u8>, number: u8) {
    out.extend_from_slice(&[b'0' + number / 10, b'0' + number % 10]);
}

fn put_head(out: &mut Vec<u8>, letter: u8, port: u8) {
    out.extend_from_slice(&[letter, b',']);
    put_two(out, port);
}

/// A comma, and bytes in digits.
fn put_field(out: &mut Vec<u8>, bytes: &[u8]) {
    out.push(b',');
    put_bytes(out, bytes);
}

fn put_marks(out: &mut Vec<u8>, marks: &Marks) {
    for mark in [marks.expedited, marks.ended, marks.asynchronous] {
        out.push(b'0' + u8::from(mark));
    }
}

fn put_record(out: &mut Vec<u8>, port: &Port) {
    put_field(out, &port.addresses);
    let Some(connection) = &port.connection else {
        out.extend_from_slice(b",disconnected");
        return;
    };
    let idle = connection.held.is_none();
    out.extend_from_slice(if idle { b",idle" } else { b",active" });
    put_field(out, &[connection.cusyn]);
    out.push(b',');
    put_marks(out, &connection.marks);
    put_field(out, &[connection.online]);
    if let Some(held) = &connection.held {
        put_field(out, held);
    }
}

fn put_ending(out: &mut Vec<u8>, ending: &Ending) {
    out.push(b',');
    put_two(out, ending.number());
    match ending {
        Ending::Refused(_) | Ending::NoRestart => {}
        Ending::Disconnected(told) => put_disconnection(out, told),
        Ending::HandedOver(event, told) => {
            put_field(out, event);
            put_disconnection(out, told);
        }
    }
}

fn put_disconnection(out: &mut Vec<u8>, told: &Disconnection) {
    let (word, address) = match told.last {
        None => ("none", 0),
        Some(Command::Poll) => ("poll", 0),
        Some(Command::Read(address)) => ("read", address),
        Some(Command::Write(address, _)) => ("write", address),
        Some(Command::Start) => ("start", 0),
        Some(Command::Acknowledge) => ("acknowledge", 0),
        Some(Command::TerminalId) => ("id", 0),
        Some(Command::Reset) => unreachable!("a Reset is never told"),
    };
    out.push(b',');
    out.extend_from_slice(word.as_bytes());
    put_field(out, &address.to_be_bytes());
    match &told.lost {
        Some(request) => put_field(out, request),
        None => out.extend_from_slice(b",none"),
    }
}

#[cfg(test)]
mod tests;
