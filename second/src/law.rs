//! The law on the counts, checked by counting: what the answers say of a port
//! beside what its record and its line say.

use crate::layout::{self, Request};
use crate::lines::Line;
use crate::unit::{Disconnection, Ending, Port, READY};

/// A call as far as it is counted.
#[derive(Clone, Copy)]
pub enum Counted {
    Attach,
    Request(Request),
    Collect,
    Take,
    Expedite,
    /// Configure, poll, fetch and drop can only end a connection.
    Other,
}

/// What the answers say of a port's state.
#[derive(Clone, Copy, Debug, Default, PartialEq, Eq)]
enum State {
    #[default]
    Disconnected,
    Idle,
    Active,
}

/// What is counted since the attach that connected the port; the line's counts
/// wrap, and so do these.
#[derive(Clone, Copy, Default)]
struct Since {
    collected: u32,
    events: u32,
    expedited: u32,
}

/// All that is read off the answers at one port.
#[derive(Clone, Copy, Default)]
pub struct Tally {
    state: State,
    accepted: u64,
    collected: u64,
    lost: u64,
    since: Since,
    latest: Request,
    /// The line is not the one that the port was connected over.
    exchanged: bool,
}

impl Tally {
    /// The port has another line now. Nothing is owed of it until it has been
    /// connected anew.
    pub fn exchange_line(&mut self) {
        self.exchanged = true;
    }

    fn accept(&mut self, request: Request) {
        self.accepted += 1;
        self.latest = request;
        self.state = State::Active;
    }

    fn disconnect(&mut self, disconnection: &Disconnection) {
        self.lost += u64::from(disconnection.lost.is_some());
        self.state = State::Disconnected;
    }

    pub fn note(&mut self, call: Counted, answer: Result<(), Ending>) {
        match (call, answer) {
            (Counted::Attach, Ok(())) => {
                self.accept(READY);
                self.since = Since::default();
                self.exchanged = false;
            }
            (Counted::Request(request), Ok(()) | Err(Ending::Disconnected(_))) => {
                self.accept(request);
            }
            (Counted::Collect, Ok(())) => {
                self.collected += 1;
                self.since.collected = self.since.collected.wrapping_add(1);
                self.state = State::Idle;
            }
            (Counted::Take, Ok(()) | Err(Ending::HandedOver(..))) => {
                self.since.events = self.since.events.wrapping_add(1);
            }
            (Counted::Expedite, Ok(())) => {
                self.since.expedited = self.since.expedited.wrapping_add(1);
            }
            _ => {}
        }
        if let Err(Ending::Disconnected(told) | Ending::HandedOver(_, told)) = answer {
            self.disconnect(&told);
        }
    }

    /// What does not hold, if anything.
    pub fn fault(&self, port: &Port, line: Option<&Line>) -> Option<&'static str> {
        let recorded = match port.connection {
            None => State::Disconnected,
            Some(connection) if connection.held.is_none() => State::Idle,
            Some(_) => State::Active,
        };
        if recorded != self.state {
            return Some("the record's state is not that of the answers");
        }
        let open = u64::from(self.state == State::Active);
        if self.accepted != self.collected + self.lost + open {
            return Some("(c): accepted against collected and lost");
        }
        match line {
            Some(line) if self.state != State::Disconnected && !self.exchanged => {
                self.fault_of_line(line)
            }
            _ => None,
        }
    }

    fn fault_of_line(&self, line: &Line) -> Option<&'static str> {
        let device = &line.device;
        let active = self.state == State::Active;
        if device.taken != self.since.collected.wrapping_add(active.into()) {
            return Some("(a): taken against collected");
        }
        if active && device.last != self.latest {
            return Some("(a): the last taken against the latest accepted");
        }
        let present = |toggle| u32::from(device.read(toggle) != Some(0));
        if device.events != self.since.events.wrapping_add(present(layout::DPASTAT)) {
            return Some("(b): events posted against handed over");
        }
        if device.expedited != self.since.expedited.wrapping_add(present(layout::EXFAK)) {
            return Some("(b): expedited statuses posted against handed over");
        }
        None
    }
}
