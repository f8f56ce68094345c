//! One line on commands given as text, as docs/LINERUN.md says.

use crate::choice::{self, Choice, Notes};
use crate::device::{Memory, Polled};
use crate::lines::{Answer, Command, Line};
use crate::stream;
use crate::text::{self, Fields, put_bytes, say};

/// One run: the notes for the next line, and the line there is.
pub struct Session {
    notes: Notes,
    line: Option<Line>,
    /// The memory of a line that is no more.
    spare: Memory,
}

impl stream::Session for Session {
    const LONGEST: usize =
        b"L,state,4294967295,1,1,FF,FFFFFFFFFFFFFFFF,4294967295,4294967295,4294967295,255,FF".len();

    fn answer(&mut self, line: &[u8], out: &mut Vec<u8>) {
        if self.obey(line, out).is_none() {
            text::refuse(out);
        }
    }
}

impl Default for Session {
    fn default() -> Self {
        Self::new()
    }
}

impl Session {
    pub fn new() -> Self {
        Session {
            notes: Notes::new(),
            line: None,
            spare: Memory::default(),
        }
    }

    /// `None` if the line is malformed; nothing has then changed, and nothing
    /// has been written.
    fn obey(&mut self, line: &[u8], out: &mut Vec<u8>) -> Option<()> {
        match line {
            b"P" => self.send(b'P', Command::Poll, out),
            [b'R', b',', rest @ ..] => {
                let address = Fields::whole(rest, Fields::address)?;
                self.send(b'R', Command::Read(address), out)
            }
            [b'W', b',', rest @ ..] => {
                let command = Fields::whole(rest, |fields| {
                    let address = fields.address()?;
                    fields.comma()?;
                    Some(Command::Write(address, fields.byte()?))
                })?;
                self.send(b'W', command, out)
            }
            b"S" => self.send(b'S', Command::Start, out),
            b"A" => self.send(b'A', Command::Acknowledge, out),
            b"I" => self.send(b'I', Command::TerminalId, out),
            b"X" => self.send(b'X', Command::Reset, out),
            b"T" => {
                let line = self.line.as_mut()?;
                out.push(b'T');
                choice::put_telling(out, line);
                say(out, b"\n")
            }
            [letter, b',', rest @ ..] => self.tell_or_choose(*letter, rest, out),
            _ => None,
        }
    }

    /// What is no command.
    fn tell_or_choose(&mut self, letter: u8, rest: &[u8], out: &mut Vec<u8>) -> Option<()> {
        match letter {
            b'E' => {
                let event = Fields::whole(rest, Fields::bytes)?;
                self.line.as_mut()?.tell_event(event)?;
                say(out, b"E,told\n")
            }
            b'F' => {
                let end = Fields::whole(rest, Fields::bytes)?;
                self.line.as_mut()?.tell_end(end)?;
                say(out, b"F,told\n")
            }
            b'M' => {
                self.notes.note_byte(rest)?;
                say(out, b"M,noted\n")
            }
            b'Z' => {
                self.notes.note_marks(rest)?;
                say(out, b"Z,noted\n")
            }
            b'L' => self.begin(Choice::read(rest)?, out),
            _ => None,
        }
    }

    /// Ends the line there is and begins another.
    fn begin(&mut self, choice: Choice, out: &mut Vec<u8>) -> Option<()> {
        let memory = match self.line.take() {
            Some(line) => line.into_memory(),
            None => std::mem::take(&mut self.spare),
        };
        match self.notes.make(choice, memory) {
            Ok(line) => {
                self.line = Some(line);
                say(out, b"L,made\n")
            }
            Err(memory) => {
                self.spare = memory;
                say(out, b"L,none\n")
            }
        }
    }

    fn send(&mut self, letter: u8, command: Command, out: &mut Vec<u8>) -> Option<()> {
        let answer = self.line.as_mut()?.send(command);
        out.push(letter);
        match answer {
            None => say(out, b",none\n"),
            Some(Answer::Done) => say(out, b",done\n"),
            Some(Answer::Polled(Polled::Reset)) => say(out, b",reset\n"),
            Some(Answer::Polled(Polled::Status)) => say(out, b",status\n"),
            Some(Answer::Polled(Polled::Clean)) => say(out, b",clean\n"),
            Some(Answer::Byte(byte)) => {
                out.push(b',');
                put_bytes(out, &[byte]);
                say(out, b"\n")
            }
        }
    }
}

#[cfg(test)]
mod tests {
    use super::*;
    use crate::stream::Session as _;

    /// Answers all lines of a text, with LF as spaces between the answers.
    fn run(text: &str) -> String {
        let (mut session, mut out) = (Session::new(), Vec::new());
        for line in text.split(' ') {
            session.answer(line.as_bytes(), &mut out);
        }
        String::from_utf8(out)
            .unwrap()
            .trim_end()
            .replace('\n', " ")
    }

    const ZEROS: &str = "0000000000000000";

    fn last(text: &str) -> String {
        run(text).rsplit(' ').next().unwrap().to_owned()
    }

    #[test]
    fn without_a_line_commands_are_refused() {
        assert_eq!(run("P T E,000000000000"), "?,13 ?,13 ?,13");
        let none = format!("L,terminal L,state,255,0,0,00,{ZEROS},0,0,0,0,00 P");
        assert_eq!(run(&none), "L,made L,none ?,13");
    }

    #[test]
    fn a_terminal_waits_for_its_restart_to_be_acknowledged() {
        assert_eq!(
            run("L,terminal P E,010203040506 P A P R,0007 R,0006 R,0000 W,0000,00 P"),
            "L,made P,reset E,told P,reset A,done P,status R,01 R,06 R,01 W,done P,clean"
        );
    }

    #[test]
    fn event_and_end_may_come_in_one_poll() {
        let told = "L,terminal A W,0045,01 S F,0A0B0C0D E,010203040506 P R,0002 R,0001 R,0000 T";
        let answers = run(told);
        assert!(answers.contains("P,status R,0A R,01 R,01"), "{answers}");
        assert!(
            answers.contains(&format!("T,0,0,01,{ZEROS},1,1,0,0,")),
            "{answers}"
        );
    }

    #[test]
    fn an_end_is_held_until_a_request_is_in_work_and_past_a_restart() {
        assert_eq!(
            run("L,terminal A F,01020304 P X P A P W,0045,01 S P R,0005"),
            "L,made A,done F,told P,clean X,done P,reset A,done P,clean W,done S,done P,status R,04"
        );
    }

    #[test]
    fn a_row_stops_at_255() {
        let state = format!("L,state,256,0,0,00,{ZEROS},0,0,0,254,00");
        for (text, row) in [
            ("", 254),
            (" R,0100", 255),
            (" R,0100 R,FFFF", 255),
            (" I", 0),
        ] {
            let told = last(&format!("{state}{text} T"));
            assert_eq!(told.split(',').nth(8).unwrap(), row.to_string());
        }
    }

    #[test]
    fn what_is_unlawful_makes_no_line() {
        for (state, made) in [
            ("255,0,0,00,0000000000000000,0,0,0,0,00", "L,none"),
            ("256,0,0,00,0000000000000000,0,0,0,0,FF", "L,made"),
            (
                "32768,0,1,FF,FFFFFFFFFFFFFFFF,4294967295,0,1,255,00",
                "L,made",
            ),
            ("32769,0,0,00,0000000000000000,0,0,0,0,00", "L,none"),
            ("256,1,0,00,FFFFFFFFFFFFFFFF,0,0,0,9,00", "L,made"),
            ("256,1,1,00,0000000000000000,0,0,0,0,00", "L,none"),
            ("256,1,0,01,0000000000000000,0,0,0,0,00", "L,none"),
            ("256,1,0,00,0000000000000000,0,1,0,0,00", "L,none"),
            ("256,1,0,00,0000000000000000,0,0,0,0,01", "L,none"),
        ] {
            assert_eq!(last(&format!("L,state,{state}")), made, "{state}");
        }
    }

    #[test]
    fn pokes_decide_lawfulness_and_the_last_one_counts() {
        let state = format!("L,state,256,1,0,00,{ZEROS},0,0,0,0,07");
        let cleared = "M,0000,00 M,0001,05 M,0001,00 M,0026,00 M,0100,FF";
        assert_eq!(last(&format!("{cleared} {state}")), "L,made");
        assert_eq!(last(&format!("{cleared} M,0026,01 {state}")), "L,none");
        assert_eq!(last(&format!("{cleared} L,terminal {state}")), "L,none");
    }

    #[test]
    fn at_most_64_pokes_are_noted() {
        let pokes = ["M,0080,01"; 65].join(" ");
        let answers = run(&pokes);
        assert_eq!(answers.matches("M,noted").count(), 64);
        assert!(answers.ends_with("?,13"));
        assert_eq!(last(&format!("{pokes} L,wrong M,0080,01")), "?,13");
        assert_eq!(last(&format!("{pokes} L,terminal M,0080,01")), "M,noted");
    }

    const WRONG: &[&str] = &[
        "",
        "p",
        "P,",
        " P",
        "P\r",
        "P\0",
        "R",
        "R,",
        "R,00",
        "R,000a",
        "R,00000",
        "R,0000,",
        "W,0000",
        "W,0000,0",
        "W,0000,000",
        "W,0000,00,",
        "E,0000000000",
        "E,00000000000000",
        "F,000000000000",
        "M,0000",
        "Z,",
        "Z,P",
        "L",
        "L,",
        "L,terminal,",
        "L,printer,00000000",
        "L,state",
        "L,state,0256,0,0,00,0000000000000000,0,0,0,0,00",
        "L,state,256,2,0,00,0000000000000000,0,0,0,0,00",
        "L,state,256,0,0,00,0000000000000000,4294967296,0,0,0,00",
        "L,state,256,0,0,00,0000000000000000,0,0,0,256,00",
        "L,state,256,0,0,00,0000000000000000,0,0,0,00,00",
        "L,state,256,0,0,00,0000000000000000,,0,0,0,00",
        "L,state,256,0,0,00,000000000000000g,0,0,0,0,00",
    ];

    #[test]
    fn wrong_text_is_refused() {
        for line in WRONG {
            let mut session = Session::new();
            let mut out = Vec::new();
            session.answer(b"L,terminal", &mut out);
            out.clear();
            session.answer(line.as_bytes(), &mut out);
            assert_eq!(out, b"?,13\n", "{line:?}");
            assert!(session.line.is_some());
        }
    }

    #[test]
    fn a_printer_ends_at_the_poll_its_second_parameter_names() {
        let request =
            "L,printer,01020304,050607080900 A W,0047,02 W,0045,01 S P P P R,0005 F,01020304";
        assert!(run(request).ends_with("S,done P,clean P,clean P,status R,04 ?,13"));
        // A toggle still set puts the end off.
        let second = "W,0047,00 W,0045,02 S P R,0002 W,0001,00 P R,0002";
        assert!(
            run(&format!("{request} {second}"))
                .ends_with("S,done P,status R,01 W,done P,status R,01")
        );
    }

    #[test]
    fn every_tenth_end_brings_one_expedited_status() {
        let mut text = "L,printer,01020304,A5B6C7D8E9F0 A".to_owned();
        let count = |text: &str| {
            last(&format!("{text} T"))
                .split(',')
                .nth(7)
                .unwrap()
                .to_owned()
        };
        for end in 1..=30 {
            // Restarts do not count, and an end is counted past them.
            if end == 4 {
                text += " X A";
            }
            text += &format!(" W,0045,{end:02X} S P W,0001,00");
            assert_eq!(count(&text), if end < 10 { "0" } else { "1" }, "end {end}");
        }
        assert!(
            run(&format!("{text} R,0021 R,0020 R,005C R,005F")).ends_with("R,A5 R,B6 R,C7 R,F0")
        );
        // The one that came due at the twentieth end was not doubled at the thirtieth.
        text += " W,0026,00 P";
        assert_eq!(count(&text), "2");
        text += " W,0026,00 P";
        assert_eq!(count(&text), "2");
    }

    #[test]
    fn what_is_due_outlasts_a_restart() {
        let mut text = "L,printer,01020304,A5B6C7D8E9F0 A".to_owned();
        for end in 1..=20 {
            text += &format!(" W,0045,{end:02X} S P W,0001,00");
        }
        assert!(
            run(&format!("{text} X P A P R,0026 P"))
                .ends_with("X,done P,reset A,done P,status R,01 P,status")
        );
    }

    #[test]
    fn a_losing_line_uses_its_marks_in_rotation() {
        let marks = format!("Z,{}", "PUHP".repeat(16));
        let commands = "A W,0080,01 W,0081,01 R,0080 R,0081 R,0081 R,0081 R,0081";
        assert!(
            run(&format!("{marks} L,terminal {commands}"))
                .ends_with("L,made A,done W,none W,none R,00 R,01 R,none R,none R,01")
        );
    }

    #[test]
    fn a_losing_line_has_its_own_row() {
        let state = format!(
            "Z,{} L,state,256,0,0,00,{ZEROS},0,0,0,77,00",
            "H".repeat(64)
        );
        let row = |text: &str| {
            last(&format!("{state}{text} T"))
                .split(',')
                .nth(8)
                .unwrap()
                .to_owned()
        };
        assert_eq!(row(""), "0");
        assert_eq!(row(" P E,000000000000 P T"), "2");
        assert_eq!(row(&" P".repeat(300)), "255");
    }

    #[test]
    fn the_longest_line_is_well_formed() {
        let longest =
            "L,state,4294967295,1,1,FF,FFFFFFFFFFFFFFFF,4294967295,4294967295,4294967295,255,FF";
        assert_eq!(longest.len(), Session::LONGEST);
        assert_eq!(run(longest), "L,none");
    }
}
