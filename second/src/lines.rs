//! A line: a device with the program that runs in it, and the coax before it,
//! which may lose commands and answers.

use crate::device::{Device, Memory, PRESENT, Polled, Started};
#[cfg(test)]
use crate::hostile::Hostile;
use crate::layout::{self, Event, Expedited, Synchronous};

#[derive(Clone, Copy, Debug, PartialEq, Eq)]
pub enum Command {
    Poll,
    Read(u16),
    Write(u16, u8),
    Start,
    Acknowledge,
    TerminalId,
    Reset,
}

#[derive(Clone, Copy, Debug, PartialEq, Eq)]
pub enum Answer {
    Polled(Polled),
    Byte(u8),
    Done,
}

/// What becomes of one command on a losing line.
#[derive(Clone, Copy)]
pub enum Mark {
    Passes,
    Unheard,
    Heard,
}

pub const MARKS: usize = 64;
pub type Marks = [Mark; MARKS];

/// Commands unanswered in a row; it stops at 255.
#[derive(Clone, Copy, Default)]
pub struct Row(pub u8);

impl Row {
    fn note(&mut self, answer: Option<Answer>) {
        self.0 = match answer {
            Some(_) => 0,
            None => self.0.saturating_add(1),
        };
    }
}

#[derive(Default)]
pub struct Terminal {
    event: Option<Event>,
    end: Option<Synchronous>,
}

impl Terminal {
    fn poll(&mut self, device: &mut Device) {
        self.event
            .take_if(|event| device.post_event(event, PRESENT));
        self.end
            .take_if(|end| device.post_synchronous(end, PRESENT));
    }
}

pub struct Printer {
    end: Synchronous,
    expedited: Expedited,
    /// Polls to let go by before the request in work is ended.
    polls: u8,
    /// Ends since the last tenth one; a restart does not touch it.
    ends: u8,
    due: bool,
}

impl Printer {
    const SIZE: usize = 4096;
    const ENDS: u8 = 10;

    fn poll(&mut self, device: &mut Device) {
        if device.working {
            if self.polls > 0 {
                self.polls -= 1;
            } else if device.post_synchronous(&self.end, PRESENT) {
                self.ends += 1;
                if self.ends == Self::ENDS {
                    self.ends = 0;
                    self.due = true;
                }
            }
        }
        if self.due && device.post_expedited(&self.expedited, PRESENT) {
            self.due = false;
        }
    }
}

enum Program {
    Terminal(Terminal),
    Printer(Printer),
    #[cfg(test)]
    Hostile(Hostile),
}

/// Marks in rotation, and a row of its own.
struct Losing {
    marks: Marks,
    next: usize,
    row: Row,
}

impl Losing {
    fn next_mark(&mut self) -> Mark {
        let mark = self.marks[self.next];
        self.next = (self.next + 1) % MARKS;
        mark
    }
}

pub struct Line {
    pub device: Device,
    program: Program,
    row: Row,
    /// The losing lines that stand over the device's, the outermost last.
    losing: Vec<Losing>,
}

impl Line {
    fn new(device: Device, program: Program) -> Self {
        Line {
            device,
            program,
            row: Row::default(),
            losing: Vec::new(),
        }
    }

    pub fn terminal(memory: Memory) -> Self {
        let device = Device::fresh(memory, layout::SMALLEST);
        Line::new(device, Program::Terminal(Terminal::default()))
    }

    pub fn printer(memory: Memory, end: Synchronous, expedited: Expedited) -> Self {
        let device = Device::fresh(memory, Printer::SIZE);
        let printer = Printer {
            end,
            expedited,
            polls: 0,
            ends: 0,
            due: false,
        };
        Line::new(device, Program::Printer(printer))
    }

    /// A line that begins in a state and behaves as the terminal does.
    pub fn in_state(device: Device, row: Row) -> Self {
        Line {
            row,
            ..Line::new(device, Program::Terminal(Terminal::default()))
        }
    }

    #[cfg(test)]
    pub fn hostile(device: Device, hostile: Hostile) -> Self {
        Line::new(device, Program::Hostile(hostile))
    }

    /// The line with a losing line over it, and over what it had already.
    pub fn lost_over(mut self, marks: Marks) -> Self {
        self.losing.push(Losing {
            marks,
            next: 0,
            row: Row::default(),
        });
        self
    }

    /// Gives the memory back, to be used by another line.
    pub fn into_memory(self) -> Memory {
        self.device.memory
    }

    pub fn row(&self) -> u8 {
        self.losing.last().map_or(self.row, |losing| losing.row).0
    }

    /// The terminal behind this line, if it is one that can be told things.
    fn teller(&mut self) -> Option<&mut Terminal> {
        match &mut self.program {
            Program::Terminal(terminal) => Some(terminal),
            _ => None,
        }
    }

    pub fn tell_event(&mut self, event: Event) -> Option<()> {
        self.teller()?.event = Some(event);
        Some(())
    }

    pub fn tell_end(&mut self, end: Synchronous) -> Option<()> {
        self.teller()?.end = Some(end);
        Some(())
    }

    pub fn size(&self) -> usize {
        self.device.memory.size()
    }

    pub fn send(&mut self, command: Command) -> Option<Answer> {
        if self.losing.is_empty() {
            return self.pass(command);
        }
        self.send_through(self.losing.len(), command)
    }

    /// The command has to get through so many losing lines.
    fn send_through(&mut self, losing: usize, command: Command) -> Option<Answer> {
        let Some(below) = losing.checked_sub(1) else {
            return self.pass(command);
        };
        let answer = match self.losing[below].next_mark() {
            Mark::Passes => self.send_through(below, command),
            Mark::Unheard => None,
            Mark::Heard => {
                self.send_through(below, command);
                None
            }
        };
        self.losing[below].row.note(answer);
        answer
    }

    /// The command reaches the device.
    fn pass(&mut self, command: Command) -> Option<Answer> {
        let answer = self.obey(command);
        self.row.note(answer);
        answer
    }

    fn obey(&mut self, command: Command) -> Option<Answer> {
        let device = &mut self.device;
        match command {
            Command::Poll => {
                match &mut self.program {
                    Program::Terminal(terminal) => terminal.poll(device),
                    Program::Printer(printer) => printer.poll(device),
                    #[cfg(test)]
                    Program::Hostile(hostile) => hostile.poll(device),
                }
                return Some(Answer::Polled(device.polled()));
            }
            Command::Read(address) => return device.read(address.into()).map(Answer::Byte),
            Command::Write(address, byte) => {
                if !device.write(address.into(), byte) {
                    return None;
                }
            }
            Command::Start => {
                let started = device.start();
                if let (Started::Taken, Program::Printer(printer)) = (started, &mut self.program) {
                    printer.polls = device.last[layout::SECOND_PARAMETER];
                }
            }
            Command::Acknowledge => device.acknowledge(),
            Command::TerminalId => {}
            Command::Reset => device.restart(),
        }
        Some(Answer::Done)
    }
}
