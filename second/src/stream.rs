//! Reads text line by line and writes what a session answers.

use std::io::{self, ErrorKind, Read, Write};

use crate::text;

const CHUNK: usize = 64 * 1024;

/// What answers lines of text, one after the other.
pub trait Session {
    /// No well-formed line is longer than this; it is below the room for
    /// reading.
    const LONGEST: usize;

    /// Answers one line, given without its LF.
    fn answer(&mut self, line: &[u8], out: &mut Vec<u8>);
}

/// Where the first LF is, sought eight bytes at a time.
fn first_lf(bytes: &[u8]) -> Option<usize> {
    const ONES: u64 = u64::from_ne_bytes([0x01; 8]);
    const HIGHS: u64 = u64::from_ne_bytes([0x80; 8]);
    let (words, rest) = bytes.as_chunks::<8>();
    for (i, word) in words.iter().enumerate() {
        // A byte is zero here where there is an LF; the lowest such is found.
        let zeros = u64::from_le_bytes(*word) ^ (ONES * u64::from(b'\n'));
        let found = zeros.wrapping_sub(ONES) & !zeros & HIGHS;
        if found != 0 {
            return Some(8 * i + found.trailing_zeros() as usize / 8);
        }
    }
    let at = rest.iter().position(|&byte| byte == b'\n')?;
    Some(8 * words.len() + at)
}

/// Answers the whole lines at the front of the text, and gives what is left.
/// `too_long` says of the first that its beginning was thrown away.
fn answer_lines<'a, S: Session>(
    session: &mut S,
    mut rest: &'a [u8],
    too_long: &mut bool,
    out: &mut Vec<u8>,
    output: &mut impl Write,
) -> io::Result<&'a [u8]> {
    while let Some(end) = first_lf(rest) {
        if std::mem::take(too_long) || end > S::LONGEST {
            text::refuse(out);
        } else {
            session.answer(&rest[..end], out);
        }
        rest = &rest[end + 1..];
        if out.len() >= CHUNK {
            output.write_all(out)?;
            out.clear();
        }
    }
    *too_long |= rest.len() > S::LONGEST;
    Ok(rest)
}

/// Answers all of the input. Whatever its length, it takes the same room.
fn run<S: Session>(
    session: &mut S,
    input: &mut impl Read,
    output: &mut impl Write,
) -> io::Result<()> {
    const { assert!(S::LONGEST < CHUNK) };
    let mut out = Vec::with_capacity(2 * CHUNK);
    let mut buffer = vec![0; CHUNK];
    // Bytes at the front of the buffer that begin a line whose LF is to come.
    let mut held = 0;
    // The line being read is too long already; the rest of it is left out.
    let mut too_long = false;

    loop {
        // What can be answered is answered before more is waited for.
        output.write_all(&out)?;
        output.flush()?;
        out.clear();

        let length = match input.read(&mut buffer[held..]) {
            Ok(0) => break,
            Ok(length) => held + length,
            Err(error) if error.kind() == ErrorKind::Interrupted => continue,
            Err(error) => return Err(error),
        };
        let read = &buffer[..length];
        let rest = answer_lines(session, read, &mut too_long, &mut out, output)?.len();
        held = if too_long { 0 } else { rest };
        buffer.copy_within(length - rest..length - rest + held, 0);
    }

    // Text after the last LF.
    if held > 0 || too_long {
        text::refuse(&mut out);
    }
    output.write_all(&out)?;
    output.flush()
}

/// Answers standard input on standard output.
pub fn run_standard(session: &mut impl Session) -> io::Result<()> {
    run(session, &mut io::stdin().lock(), &mut io::stdout().lock())
}

#[cfg(test)]
mod tests {
    use super::*;
    use crate::linerun;

    /// Gives at most `step` bytes at a time.
    struct Steps<'a>(&'a [u8], usize);

    impl Read for Steps<'_> {
        fn read(&mut self, buffer: &mut [u8]) -> io::Result<usize> {
            let length = self.1.min(self.0.len()).min(buffer.len());
            let (now, later) = self.0.split_at(length);
            buffer[..length].copy_from_slice(now);
            self.0 = later;
            Ok(length)
        }
    }

    fn answers(input: &[u8], step: usize) -> String {
        let mut output = Vec::new();
        let mut session = linerun::Session::new();
        run(&mut session, &mut Steps(input, step), &mut output).unwrap();
        String::from_utf8(output).unwrap()
    }

    #[test]
    fn the_first_lf_is_found() {
        for length in 0..40 {
            for filler in [0x00, 0x09, 0x0B, 0x8A, 0xFF] {
                let mut bytes = vec![filler; length];
                assert_eq!(first_lf(&bytes), None);
                for at in (0..length).rev() {
                    bytes[at] = b'\n';
                    assert_eq!(first_lf(&bytes), Some(at));
                }
            }
        }
    }

    #[test]
    fn the_answers_do_not_depend_on_the_steps_of_reading() {
        let input = b"L,terminal\nA\nW,0080,5A\n\nR,0080\nP\0\nP";
        for step in 1..=input.len() {
            assert_eq!(
                answers(input, step),
                "L,made\nA,done\nW,done\n?,13\nR,5A\n?,13\n?,13\n"
            );
        }
    }

    #[test]
    fn text_after_the_last_lf_is_refused_and_nothing_is_not() {
        assert_eq!(answers(b"", 1), "");
        assert_eq!(answers(b"\n", 1), "?,13\n");
        assert_eq!(answers(b"L,terminal\nP\n", 9), "L,made\nP,reset\n");
        assert_eq!(answers(b"L,terminal\nP", 9), "L,made\n?,13\n");
        assert_eq!(answers(&[b'P'; 1000], 9), "?,13\n");
    }

    #[test]
    fn a_long_line_has_one_answer() {
        for length in [
            linerun::Session::LONGEST,
            linerun::Session::LONGEST + 1,
            CHUNK - 1,
            CHUNK,
            CHUNK + 1,
            5 * CHUNK,
        ] {
            for step in [1000, CHUNK] {
                let input = [b"L,terminal\nI", &vec![b'I'; length][..], b"\nI\n"].concat();
                assert_eq!(answers(&input, step), "L,made\n?,13\nI,done\n");
            }
        }
    }
}
