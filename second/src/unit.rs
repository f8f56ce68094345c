//! The unit: a record for each of its ports, and the ten calls.

use crate::codes;
use crate::device::Polled;
use crate::events;
use crate::layout::{self, Event, Expedited, Request, Synchronous};
use crate::lines::{Command, Line};
use crate::sending::{self, Silence};

pub const PORTS: usize = 32;

/// The five LT addresses of a port.
pub type Addresses = [u8; 5];
pub const NO_TERMINAL: u8 = 0xFF;

/// The request that attach starts.
pub const READY: Request = [0x02, 0x10, 0x00, 0x00, 0x00, 0xFF, 0x00, 0x00];

/// Neither a request nor a fetch moves more bytes than this.
const MOST_DATA: usize = 4096;

/// What the unit is attached to.
#[derive(Clone, Copy, Debug, PartialEq, Eq)]
pub enum Attachment {
    Bsc,
    Local,
    Sna,
}

#[derive(Clone, Copy, Debug, Default, PartialEq, Eq)]
pub struct Marks {
    pub expedited: bool,
    pub ended: bool,
    pub asynchronous: bool,
}

/// What a port has only while it is connected.
#[derive(Clone, Copy, Debug, PartialEq, Eq)]
pub struct Connection {
    /// The value of CUSYN written last.
    pub cusyn: u8,
    pub marks: Marks,
    /// The LTs online; the most significant bit is that of the first address.
    pub online: u8,
    /// The request held; the port is idle if there is none.
    pub held: Option<Request>,
}

#[derive(Clone, Copy, Debug, PartialEq, Eq)]
pub struct Port {
    pub addresses: Addresses,
    pub connection: Option<Connection>,
}

#[derive(Clone, Copy, Debug, PartialEq, Eq)]
pub struct Disconnection {
    pub cause: u8,
    pub last: Option<Command>,
    pub lost: Option<Request>,
}

/// How a call ended that did not do what was asked.
#[derive(Clone, Copy, Debug, PartialEq, Eq)]
pub enum Ending {
    Refused(u8),
    Disconnected(Disconnection),
    /// The event was handed over, and was the device's last.
    HandedOver(Event, Disconnection),
    /// Attach found no restart waiting.
    NoRestart,
}

impl Ending {
    pub fn number(&self) -> u8 {
        match self {
            Ending::Refused(number) => *number,
            Ending::Disconnected(told) | Ending::HandedOver(_, told) => told.cause,
            Ending::NoRestart => 27,
        }
    }
}

pub type Answer<T> = Result<T, Ending>;

mod refusal {
    pub const PORT: u8 = 1;
    pub const EQUAL_ADDRESSES: u8 = 2;
    pub const NOT_CONFIGURED: u8 = 3;
    pub const CONNECTED: u8 = 4;
    pub const DISCONNECTED: u8 = 5;
    pub const NOT_IDLE: u8 = 6;
    pub const CODE: u8 = 7;
    pub const NOT_ONLINE: u8 = 8;
    pub const DATA: u8 = 9;
    pub const NO_MARK: u8 = 10;
    pub const EXPEDITED_FIRST: u8 = 11;
}

mod cause {
    pub const SILENCE: u8 = 21;
    pub const BAD_TOGGLE: u8 = 22;
    pub const RESTARTED: u8 = 23;
    pub const EVENT: u8 = 24;
    pub const PERMANENT_ERROR: u8 = 25;
    pub const DROPPED: u8 = 26;
}

/// Why a call is broken off, and the last command it sent.
struct Broken {
    cause: u8,
    last: Command,
}

impl From<Silence> for Broken {
    fn from(Silence(last): Silence) -> Self {
        Broken {
            cause: cause::SILENCE,
            last,
        }
    }
}

/// Refuses unless the condition holds. Each call asks for its conditions in
/// the order of their numbers, so the smallest number is the answer.
fn require(condition: bool, number: u8) -> Answer<()> {
    condition.then_some(()).ok_or(Ending::Refused(number))
}

/// Whether data of this length lies in the data area of a memory of this size
/// and is not too long. No data always does.
fn fits(address: u16, length: usize, size: usize) -> bool {
    let first = usize::from(address);
    length == 0 || (length <= MOST_DATA && first >= layout::DATA_AREA && first + length <= size)
}

fn two_are_equal(addresses: &Addresses) -> bool {
    (1..addresses.len())
        .any(|i| addresses[i] != NO_TERMINAL && addresses[..i].contains(&addresses[i]))
}

impl Port {
    const NEW: Port = Port {
        addresses: [NO_TERMINAL; 5],
        connection: None,
    };

    fn is_configured(&self) -> bool {
        self.addresses != Port::NEW.addresses
    }

    fn connected(&mut self) -> Answer<&mut Connection> {
        self.connection
            .as_mut()
            .ok_or(Ending::Refused(refusal::DISCONNECTED))
    }

    fn disconnect(&mut self, cause: u8, last: Option<Command>) -> Disconnection {
        let held = self
            .connection
            .take()
            .and_then(|connection| connection.held);
        Disconnection {
            cause,
            last,
            lost: held,
        }
    }

    /// Disconnects, with one Reset unless it was for silence.
    fn break_off(&mut self, line: &mut Line, Broken { cause, last }: Broken) -> Ending {
        if cause != cause::SILENCE {
            line.send(Command::Reset);
        }
        Ending::Disconnected(self.disconnect(cause, Some(last)))
    }
}

pub struct Unit {
    attachment: Attachment,
    ports: [Port; PORTS],
    /// The port that turn named last.
    named: usize,
}

impl Unit {
    pub fn new(attachment: Attachment) -> Self {
        Unit {
            attachment,
            ports: [Port::NEW; PORTS],
            named: PORTS - 1,
        }
    }

    pub fn ports(&self) -> &[Port; PORTS] {
        &self.ports
    }

    fn port(&mut self, port: u8) -> Answer<&mut Port> {
        self.ports
            .get_mut(usize::from(port))
            .ok_or(Ending::Refused(refusal::PORT))
    }

    fn configured(&mut self, port: u8) -> Answer<&mut Port> {
        let port = self.port(port)?;
        require(port.is_configured(), refusal::NOT_CONFIGURED)?;
        Ok(port)
    }

    pub fn configure(&mut self, port: u8, addresses: Addresses) -> Answer<()> {
        let port = self.port(port)?;
        require(!two_are_equal(&addresses), refusal::EQUAL_ADDRESSES)?;
        require(port.connection.is_none(), refusal::CONNECTED)?;
        port.addresses = addresses;
        Ok(())
    }

    pub fn attach(&mut self, port: u8, line: &mut Line) -> Answer<()> {
        let port = self.configured(port)?;
        require(port.connection.is_none(), refusal::CONNECTED)?;
        match bring_up(line, &port.addresses) {
            Ok(Some(connection)) => {
                port.connection = Some(connection);
                Ok(())
            }
            Ok(None) => {
                line.send(Command::Reset);
                Err(Ending::NoRestart)
            }
            Err(silence) => Err(port.break_off(line, silence.into())),
        }
    }

    /// The port to serve next.
    pub fn turn(&mut self) -> Option<usize> {
        let expedited = |port: &Port| port.connection.is_some_and(|c| c.marks.expedited);
        let port = self.ports.iter().position(expedited).or_else(|| {
            (1..=PORTS)
                .map(|step| (self.named + step) % PORTS)
                .find(|&port| self.ports[port].is_configured())
        })?;
        self.named = port;
        Some(port)
    }

    pub fn poll(&mut self, port: u8, line: &mut Line) -> Answer<Marks> {
        let port = self.configured(port)?;
        let connection = port.connected()?;
        match poll_marks(line, connection.held.is_some()) {
            Ok(marks) => {
                connection.marks = marks;
                Ok(marks)
            }
            Err(broken) => Err(port.break_off(line, broken)),
        }
    }

    pub fn request(
        &mut self,
        port: u8,
        request: &Request,
        data: &[u8],
        line: &mut Line,
    ) -> Answer<()> {
        let port = self.configured(port)?;
        let addresses = port.addresses;
        let connection = port.connected()?;
        let [code, .., terminal, high, low] = *request;
        let address = u16::from_be_bytes([high, low]);
        require(connection.held.is_none(), refusal::NOT_IDLE)?;
        require(codes::is_listed(request), refusal::CODE)?;
        require(
            !codes::needs_online_terminal(code)
                || events::is_named(terminal, &addresses, connection.online),
            refusal::NOT_ONLINE,
        )?;
        require(fits(address, data.len(), line.size()), refusal::DATA)?;

        // Accepted from here on: what breaks off now loses it.
        connection.held = Some(*request);
        match write_and_start(line, request, address, data, connection.cusyn) {
            Ok(cusyn) => {
                connection.cusyn = cusyn;
                Ok(())
            }
            Err(silence) => Err(port.break_off(line, silence.into())),
        }
    }

    pub fn collect(&mut self, port: u8, line: &mut Line) -> Answer<Synchronous> {
        let port = self.configured(port)?;
        let connection = port.connected()?;
        require(connection.marks.ended, refusal::NO_MARK)?;
        require(!connection.marks.expedited, refusal::EXPEDITED_FIRST)?;
        match sending::read_record(line, &layout::SYNCHRONOUS.places) {
            Ok(record) => {
                connection.held = None;
                connection.marks.ended = false;
                Ok(record)
            }
            Err(silence) => Err(port.break_off(line, silence.into())),
        }
    }

    pub fn take(&mut self, port: u8, line: &mut Line) -> Answer<Event> {
        let attachment = self.attachment;
        let port = self.configured(port)?;
        let addresses = port.addresses;
        let connection = port.connected()?;
        require(connection.marks.asynchronous, refusal::NO_MARK)?;
        require(!connection.marks.expedited, refusal::EXPEDITED_FIRST)?;
        let event = match take_event(line, attachment, &addresses, connection) {
            Ok(event) => event,
            Err(broken) => return Err(port.break_off(line, broken)),
        };
        if !events::is_permanent_error(&event) {
            return Ok(event);
        }
        line.send(Command::Reset);
        let last = sending::write_of(layout::DPASTAT, 0);
        Err(Ending::HandedOver(
            event,
            port.disconnect(cause::PERMANENT_ERROR, Some(last)),
        ))
    }

    pub fn expedite(&mut self, port: u8, response: &[u8; 4], line: &mut Line) -> Answer<Expedited> {
        let port = self.configured(port)?;
        let connection = port.connected()?;
        require(connection.marks.expedited, refusal::NO_MARK)?;
        match respond(line, response) {
            Ok(record) => {
                connection.marks.expedited = false;
                Ok(record)
            }
            Err(silence) => Err(port.break_off(line, silence.into())),
        }
    }

    pub fn fetch(
        &mut self,
        port: u8,
        address: u16,
        length: usize,
        buffer: &mut [u8],
        line: &mut Line,
    ) -> Answer<()> {
        let port = self.configured(port)?;
        let connection = port.connected()?;
        require(connection.held.is_none(), refusal::NOT_IDLE)?;
        require(fits(address, length, line.size()), refusal::DATA)?;
        let front = buffer
            .get_mut(..length)
            .ok_or(Ending::Refused(refusal::DATA))?;
        for (place, byte) in (usize::from(address)..).zip(front) {
            match sending::read(line, place) {
                Ok(read) => *byte = read,
                Err(silence) => return Err(port.break_off(line, silence.into())),
            }
        }
        Ok(())
    }

    /// There is no success to answer: it always ends in something told.
    pub fn drop(&mut self, port: u8, line: &mut Line) -> Ending {
        let port = match self.configured(port) {
            Ok(port) => port,
            Err(refused) => return refused,
        };
        if let Err(refused) = port.connected() {
            return refused;
        }
        line.send(Command::Reset);
        Ending::Disconnected(port.disconnect(cause::DROPPED, None))
    }
}

/// Takes a device whose restart waits to its first request; none if no restart
/// waits.
fn bring_up(line: &mut Line, addresses: &Addresses) -> Result<Option<Connection>, Silence> {
    if sending::poll(line)? != Polled::Reset {
        return Ok(None);
    }
    sending::send(line, Command::Acknowledge)?;
    for address in layout::UNIT_HALF..layout::DATA_AREA {
        sending::write(line, address, 0)?;
    }
    sending::write_record(line, &layout::CULTA, addresses)?;
    let cusyn = sending::start(line, &READY, 0)?;
    Ok(Some(Connection {
        cusyn,
        marks: Marks::default(),
        online: 0,
        held: Some(READY),
    }))
}

fn poll_marks(line: &mut Line, active: bool) -> Result<Marks, Broken> {
    match sending::poll(line)? {
        Polled::Reset => Err(Broken {
            cause: cause::RESTARTED,
            last: Command::Poll,
        }),
        Polled::Clean => Ok(Marks::default()),
        Polled::Status => {
            let expedited = read_toggle(line, layout::EXFAK)?;
            let ended = read_toggle(line, layout::DPSSTAT)?;
            let asynchronous = read_toggle(line, layout::DPASTAT)?;
            Ok(Marks {
                expedited,
                ended: ended && active,
                asynchronous,
            })
        }
    }
}

fn read_toggle(line: &mut Line, toggle: usize) -> Result<bool, Broken> {
    match sending::read(line, toggle)? {
        0 => Ok(false),
        1 => Ok(true),
        _ => Err(Broken {
            cause: cause::BAD_TOGGLE,
            last: sending::read_of(toggle),
        }),
    }
}

fn write_and_start(
    line: &mut Line,
    request: &Request,
    address: u16,
    data: &[u8],
    cusyn: u8,
) -> Result<u8, Silence> {
    for (place, &byte) in (usize::from(address)..).zip(data) {
        sending::write(line, place, byte)?;
    }
    sending::start(line, request, cusyn)
}

/// The toggle is cleared only once the event has been tested, for that lets
/// the device post the next one.
fn take_event(
    line: &mut Line,
    attachment: Attachment,
    addresses: &Addresses,
    connection: &mut Connection,
) -> Result<Event, Broken> {
    let event = sending::read_record(line, &layout::ASYNCHRONOUS.places)?;
    let online = events::online_after(&event, attachment, addresses, connection.online);
    let online = online.ok_or(Broken {
        cause: cause::EVENT,
        last: sending::read_of(layout::DALTAD),
    })?;
    sending::write(line, layout::DPASTAT, 0)?;
    connection.online = online;
    connection.marks.asynchronous = false;
    Ok(event)
}

fn respond(line: &mut Line, response: &[u8; 4]) -> Result<Expedited, Silence> {
    let record = sending::read_record(line, &layout::EXPEDITED.places)?;
    sending::write_record(line, &layout::EXFD, response)?;
    sending::write(line, layout::EXFAK, 0)?;
    sending::send(line, Command::TerminalId)?;
    Ok(record)
}
