//! Sending a command until it is answered, and the rows of commands that
//! several calls have in common.

use crate::device::Polled;
use crate::layout::{self, Places, Request};
use crate::lines::{Answer, Command, Line};

/// A command is sent at most so often.
const SENDINGS: usize = 32;

/// The command that was not answered at any of its sendings.
#[derive(Clone, Copy, Debug, PartialEq, Eq)]
pub struct Silence(pub Command);

pub fn send(line: &mut Line, command: Command) -> Result<Answer, Silence> {
    for _ in 0..SENDINGS {
        if let Some(answer) = line.send(command) {
            return Ok(answer);
        }
    }
    Err(Silence(command))
}

pub fn poll(line: &mut Line) -> Result<Polled, Silence> {
    match send(line, Command::Poll)? {
        Answer::Polled(polled) => Ok(polled),
        other => unreachable!("a Poll was answered {other:?}"),
    }
}

pub fn read(line: &mut Line, address: usize) -> Result<u8, Silence> {
    match send(line, read_of(address))? {
        Answer::Byte(byte) => Ok(byte),
        other => unreachable!("a Read was answered {other:?}"),
    }
}

/// The Read at an address, which is always below N here.
pub fn read_of(address: usize) -> Command {
    Command::Read(address as u16)
}

/// The Write at an address, which is always below N here.
pub fn write_of(address: usize, byte: u8) -> Command {
    Command::Write(address as u16, byte)
}

pub fn write(line: &mut Line, address: usize, byte: u8) -> Result<(), Silence> {
    send(line, write_of(address, byte)).map(|_| ())
}

/// Reads a record in its order.
pub fn read_record<const N: usize>(
    line: &mut Line,
    places: &Places<N>,
) -> Result<[u8; N], Silence> {
    let mut record = [0; N];
    for (byte, &place) in record.iter_mut().zip(places) {
        *byte = read(line, place)?;
    }
    Ok(record)
}

/// Writes a record in its order.
pub fn write_record<const N: usize>(
    line: &mut Line,
    places: &Places<N>,
    record: &[u8; N],
) -> Result<(), Silence> {
    for (&place, &byte) in places.iter().zip(record) {
        write(line, place, byte)?;
    }
    Ok(())
}

/// Starts a request with the other value of CUSYN, and gives that value. It is
/// settled before the first sending, so a repeated Start is not a new one.
pub fn start(line: &mut Line, request: &Request, last_cusyn: u8) -> Result<u8, Silence> {
    let cusyn = last_cusyn ^ 1;
    write_record(line, &layout::REQUEST, request)?;
    write(line, layout::DPSSTAT, 0)?;
    write(line, layout::CUSYN, cusyn)?;
    send(line, Command::Start)?;
    Ok(cusyn)
}
