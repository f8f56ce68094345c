//! Making lists of calls. The second unit goes along, so that a list gets to
//! where it is meant to get.

use second::stream::Session as _;
use second::unitrun::Session;

use crate::running::Case;

#[derive(Clone, Copy, Debug, PartialEq, Eq)]
pub enum State {
    Unconfigured,
    Disconnected,
    Idle,
    Active,
}

/// A port's record as the unit at hand shows it.
#[derive(Clone, Copy, Debug, PartialEq, Eq)]
pub struct Record {
    pub state: State,
    pub addresses: [u8; 5],
    pub cusyn: u8,
    pub expedited: bool,
    pub ended: bool,
    pub asynchronous: bool,
    pub online: u8,
}

impl Record {
    /// Reads the answer to an `R` line.
    fn read(answer: &str) -> Record {
        let mut fields = answer.split(',').skip(2);
        let mut next = || fields.next().unwrap_or("");
        let digits = u64::from_str_radix(next(), 16).unwrap_or(0).to_be_bytes();
        let addresses = [digits[3], digits[4], digits[5], digits[6], digits[7]];
        let state = match next() {
            "idle" => State::Idle,
            "active" => State::Active,
            _ if addresses == [0xFF; 5] => State::Unconfigured,
            _ => State::Disconnected,
        };
        let cusyn = u8::from_str_radix(next(), 16).unwrap_or(0);
        let marks = next().as_bytes();
        let marked = |at: usize| marks.get(at) == Some(&b'1');
        Record {
            state,
            addresses,
            cusyn,
            expedited: marked(0),
            ended: marked(1),
            asynchronous: marked(2),
            online: u8::from_str_radix(next(), 16).unwrap_or(0),
        }
    }

    pub fn is_connected(&self) -> bool {
        matches!(self.state, State::Idle | State::Active)
    }
}

pub struct Maker {
    session: Session,
    pub lines: Vec<Vec<u8>>,
    answer: Vec<u8>,
}

impl Maker {
    /// Begins with a new unit, so that nothing before it matters.
    pub fn new(attachment: &str) -> Self {
        let mut maker = Maker {
            session: Session::new(false),
            lines: Vec::new(),
            answer: Vec::new(),
        };
        maker.line(format!("U,{attachment}"));
        maker
    }

    pub fn into_case(self) -> Case {
        Case {
            lines: self.lines,
            open_end: false,
        }
    }

    fn ask(&mut self, line: &[u8]) -> &str {
        self.answer.clear();
        self.session.answer(line, &mut self.answer);
        str::from_utf8(self.answer.trim_ascii_end()).unwrap_or("")
    }

    /// Adds a line; the answer that it has here.
    pub fn line(&mut self, line: impl Into<Vec<u8>>) -> &str {
        let line = line.into();
        self.lines.push(line.clone());
        self.ask(&line)
    }

    /// Adds lines that are parted by blanks.
    pub fn lines(&mut self, lines: &str) {
        for line in lines.split_ascii_whitespace() {
            self.line(line);
        }
    }

    /// Adds a call on a port, and asks for the record and the line after it.
    pub fn call(&mut self, port: u8, call: impl Into<Vec<u8>>) {
        self.line(call);
        self.line(format!("R,{port:02}"));
        self.line(format!("T,{port:02}"));
    }

    /// Asks for all records, of which a call may alter only one.
    pub fn all_records(&mut self) {
        for port in 0..32 {
            self.line(format!("R,{port:02}"));
        }
    }

    /// The record as it is; no line is added.
    pub fn record(&mut self, port: u8) -> Record {
        Record::read(self.ask(format!("R,{port:02}").as_bytes()))
    }
}

#[cfg(test)]
mod tests {
    use super::*;

    #[test]
    fn a_record_is_read_as_it_is_shown() {
        let record = Record::read("R,07,4041FFFFFF,active,01,101,C0,0210000000FF0000");
        assert_eq!(record.state, State::Active);
        assert_eq!(record.addresses, [0x40, 0x41, 0xFF, 0xFF, 0xFF]);
        assert_eq!((record.cusyn, record.online), (1, 0xC0));
        assert!(record.expedited && !record.ended && record.asynchronous);
        let state = |answer| Record::read(answer).state;
        assert_eq!(state("R,00,4041FFFFFF,disconnected"), State::Disconnected);
        assert_eq!(state("R,00,FFFFFFFFFF,disconnected"), State::Unconfigured);
    }
}
