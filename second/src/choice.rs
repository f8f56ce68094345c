//! Choosing a line by text: the notes for the next one, the forms of `L`, and
//! what a line tells.

use crate::device::{Device, Memory};
use crate::layout::{self, Expedited, Request, Synchronous};
use crate::lines::{Line, MARKS, Mark, Marks, Row};
use crate::text::{Fields, put_bytes, put_number};

/// What an `L` line asks for.
pub enum Choice {
    Terminal,
    Printer(Synchronous, Expedited),
    State(State),
}

/// A state in which a line is to begin, lawful or not.
pub struct State {
    size: u32,
    restart_waits: bool,
    working: bool,
    seen: u8,
    last: Request,
    counts: [u32; 3],
    row: u8,
    fill: u8,
}

impl Choice {
    /// `terminal`, `printer,...` or `state,...`.
    pub fn read(text: &[u8]) -> Option<Choice> {
        if text == b"terminal" {
            Some(Choice::Terminal)
        } else if let Some(records) = text.strip_prefix(b"printer,") {
            Fields::whole(records, |fields| {
                let end = fields.bytes()?;
                fields.comma()?;
                Some(Choice::Printer(end, fields.bytes()?))
            })
        } else {
            Fields::whole(text.strip_prefix(b"state,")?, State::read).map(Choice::State)
        }
    }
}

impl State {
    fn read(fields: &mut Fields) -> Option<State> {
        let size = fields.number(u32::MAX)?;
        fields.comma()?;
        let restart_waits = fields.truth()?;
        fields.comma()?;
        let working = fields.truth()?;
        fields.comma()?;
        let seen = fields.byte()?;
        fields.comma()?;
        let last = fields.bytes()?;
        let mut counts = [0; 3];
        for count in &mut counts {
            fields.comma()?;
            *count = fields.number(u32::MAX)?;
        }
        fields.comma()?;
        let row = fields.number(255)? as u8;
        fields.comma()?;
        let fill = fields.byte()?;
        Some(State {
            size,
            restart_waits,
            working,
            seen,
            last,
            counts,
            row,
            fill,
        })
    }

    fn device(&self, mut memory: Memory, pokes: &[(u16, u8)]) -> Device {
        // A size past the largest is unlawful, whatever it is, and gets no room.
        let size = usize::try_from(self.size).unwrap_or(usize::MAX);
        let room = if size > layout::LARGEST { 0 } else { size };
        memory.fill(room, self.fill);
        for &(address, byte) in pokes {
            memory.set(address.into(), byte);
        }
        let [taken, events, expedited] = self.counts;
        Device {
            memory,
            restart_waits: self.restart_waits,
            working: self.working,
            seen: self.seen,
            last: self.last,
            taken,
            events,
            expedited,
        }
    }
}

/// What is noted for the next line: bytes of its memory, and the marks of the
/// losing lines over it, the outer one last.
pub struct Notes {
    pokes: [(u16, u8); Notes::MOST],
    count: usize,
    marks: [Option<Marks>; 2],
}

impl Notes {
    const MOST: usize = 64;

    pub const fn new() -> Self {
        Notes {
            pokes: [(0, 0); Notes::MOST],
            count: 0,
            marks: [None; 2],
        }
    }

    /// Notes `aaaa,bb`, if there is room.
    pub fn note_byte(&mut self, text: &[u8]) -> Option<()> {
        let poke = Fields::whole(text, |fields| {
            let address = fields.address()?;
            fields.comma()?;
            Some((address, fields.byte()?))
        })?;
        *self.pokes.get_mut(self.count)? = poke;
        self.count += 1;
        Some(())
    }

    pub fn note_marks(&mut self, text: &[u8]) -> Option<()> {
        self.marks[0] = Some(marks(text)?);
        Some(())
    }

    pub fn note_outer_marks(&mut self, text: &[u8]) -> Option<()> {
        self.marks[1] = Some(marks(text)?);
        Some(())
    }

    /// Makes the line and clears the notes. Where the state is not lawful, the
    /// memory comes back.
    pub fn make(&mut self, choice: Choice, memory: Memory) -> Result<Line, Memory> {
        let notes = std::mem::replace(self, Notes::new());
        let line = match choice {
            Choice::Terminal => Line::terminal(memory),
            Choice::Printer(end, expedited) => Line::printer(memory, end, expedited),
            Choice::State(state) => {
                let device = state.device(memory, &notes.pokes[..notes.count]);
                if !device.is_lawful() {
                    return Err(device.memory);
                }
                Line::in_state(device, Row(state.row))
            }
        };
        Ok(notes
            .marks
            .into_iter()
            .flatten()
            .fold(line, Line::lost_over))
    }
}

pub fn marks(text: &[u8]) -> Option<Marks> {
    let text: &[u8; MARKS] = text.try_into().ok()?;
    let mut marks = [Mark::Passes; MARKS];
    for (mark, letter) in marks.iter_mut().zip(text) {
        *mark = match letter {
            b'P' => Mark::Passes,
            b'U' => Mark::Unheard,
            b'H' => Mark::Heard,
            _ => return None,
        };
    }
    Some(marks)
}

/// Writes what a line tells, with a comma before each field.
pub fn put_telling(out: &mut Vec<u8>, line: &mut Line) {
    let row = line.row();
    let device = &mut line.device;
    for truth in [device.restart_waits, device.working] {
        out.extend_from_slice(&[b',', b'0' + u8::from(truth)]);
    }
    out.push(b',');
    put_bytes(out, &[device.seen]);
    out.push(b',');
    put_bytes(out, &device.last);
    for number in [device.taken, device.events, device.expedited, row.into()] {
        out.push(b',');
        put_number(out, number);
    }
    out.push(b',');
    put_bytes(out, &device.memory.digest().to_be_bytes());
}
