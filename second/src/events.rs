//! Which events are allowed at a port, and what they do to its terminals.

use crate::layout::Event;
use crate::unit::{Addresses, Attachment, NO_TERMINAL};

/// The bits of a byte that stand for terminals; the other three stand for none.
const TERMINALS: u8 = 0b1111_1000;

fn bit(place: usize) -> u8 {
    0x80 >> place
}

/// The bits of the terminals that have an address.
fn configured(addresses: &Addresses) -> u8 {
    let places = (0..addresses.len()).filter(|&place| addresses[place] != NO_TERMINAL);
    places.map(bit).sum()
}

/// Whether the address is that of a terminal whose bit is set.
pub fn is_named(address: u8, addresses: &Addresses, bits: u8) -> bool {
    let mut places = 0..addresses.len();
    address != NO_TERMINAL
        && places.any(|place| addresses[place] == address && bits & bit(place) != 0)
}

/// The terminals online after the event, or none if it is not allowed.
pub fn online_after(
    &[value, kind, map, third, _, terminal]: &Event,
    attachment: Attachment,
    addresses: &Addresses,
    online: u8,
) -> Option<u8> {
    let names_terminals = map != 0 && map & !TERMINALS == 0;
    let ever = configured(addresses);
    let allowed = match (value, kind) {
        (0x20, 3) => third & 0x0F == 0 && is_named(terminal, addresses, ever),
        (0x20, 1 | 2 | 4) => third & 0x0F == 0 && terminal == NO_TERMINAL,
        (0x22, _) => is_named(terminal, addresses, online),
        (0x24 | 0x32, _) => online == 0,
        (0x26, 1 | 2) => attachment != Attachment::Sna && names_terminals,
        (0x28, 1) => names_terminals && map & !ever == 0,
        (0x28, 2) => map == 0 && online != 0,
        (0x2A, _) => attachment == Attachment::Sna,
        (0x2C | 0x2E | 0x30 | 0x34, _) => true,
        _ => false,
    };
    allowed.then_some(match (value, kind) {
        (0x28, 1) => online | map,
        (0x28, 2) => 0,
        _ => online,
    })
}

/// An event after which the device is of no more use.
pub fn is_permanent_error(&[value, kind, ..]: &Event) -> bool {
    (value, kind) == (0x20, 2)
}

#[cfg(test)]
mod tests {
    use super::*;

    const FIVE: Addresses = [0x40, 0x41, 0x42, 0x43, 0x44];
    const TWO: Addresses = [0x40, 0xFF, 0x42, 0xFF, 0xFF];

    fn after(event: Event, addresses: &Addresses, online: u8) -> Option<u8> {
        online_after(&event, Attachment::Bsc, addresses, online)
    }

    #[test]
    fn an_error_names_a_terminal_only_with_three() {
        for kind in 0..=255 {
            let some = after([0x20, kind, 9, 0xF0, 9, 0x41], &FIVE, 0).is_some();
            let none = after([0x20, kind, 9, 0xF0, 9, 0xFF], &FIVE, 0).is_some();
            assert_eq!(
                (some, none),
                (kind == 3, [1, 2, 4].contains(&kind)),
                "{kind}"
            );
        }
        assert_eq!(after([0x20, 3, 0, 0, 0, 0x41], &TWO, 0), None);
        assert_eq!(after([0x20, 3, 0, 0, 0, 0xFF], &TWO, 0), None);
        for third in 0..=255 {
            let allowed = after([0x20, 1, 0, third, 0, 0xFF], &FIVE, 0).is_some();
            assert_eq!(allowed, third % 16 == 0);
        }
    }

    #[test]
    fn terminals_go_online_beside_those_that_are() {
        assert_eq!(after([0x28, 1, 0x80, 0, 0, 0], &TWO, 0), Some(0x80));
        assert_eq!(after([0x28, 1, 0x20, 0, 0, 0], &TWO, 0x80), Some(0xA0));
        assert_eq!(after([0x28, 1, 0x40, 0, 0, 0], &TWO, 0), None);
        assert_eq!(after([0x28, 1, 0x00, 0, 0, 0], &FIVE, 0), None);
        for map in [0x04, 0x02, 0x01, 0xFC, 0xFF] {
            assert_eq!(after([0x28, 1, map, 0, 0, 0], &FIVE, 0), None, "{map:#x}");
        }
        assert_eq!(after([0x28, 1, 0xF8, 0, 0, 0], &FIVE, 0), Some(0xF8));
    }

    #[test]
    fn all_go_offline_together() {
        assert_eq!(after([0x28, 2, 0, 9, 9, 9], &FIVE, 0x48), Some(0));
        assert_eq!(after([0x28, 2, 0, 9, 9, 9], &FIVE, 0), None);
        assert_eq!(after([0x28, 2, 0x40, 9, 9, 9], &FIVE, 0x48), None);
        assert_eq!(after([0x28, 3, 0, 0, 0, 0], &FIVE, 0x48), None);
    }

    #[test]
    fn some_events_ask_for_the_attachment() {
        for (attachment, sna) in [
            (Attachment::Bsc, false),
            (Attachment::Local, false),
            (Attachment::Sna, true),
        ] {
            let allowed = |event| online_after(&event, attachment, &TWO, 0).is_some();
            assert_eq!(allowed([0x2A, 7, 7, 7, 7, 7]), sna);
            // It need not be configured here.
            assert_eq!(allowed([0x26, 1, 0x08, 7, 7, 7]), !sna);
            assert_eq!(allowed([0x26, 2, 0xF8, 7, 7, 7]), !sna);
            assert!(!allowed([0x26, 3, 0x08, 7, 7, 7]));
            assert!(!allowed([0x26, 1, 0x00, 7, 7, 7]));
            assert!(!allowed([0x26, 1, 0x84, 7, 7, 7]));
        }
    }

    #[test]
    fn some_events_ask_who_is_online() {
        assert_eq!(after([0x22, 0, 0, 0, 0, 0x42], &TWO, 0x20), Some(0x20));
        assert_eq!(after([0x22, 0, 0, 0, 0, 0x40], &TWO, 0x20), None);
        assert_eq!(after([0x22, 0, 0, 0, 0, 0xFF], &TWO, 0x20), None);
        for value in [0x24, 0x32] {
            assert_eq!(after([value, 9, 9, 9, 9, 9], &TWO, 0), Some(0));
            assert_eq!(after([value, 9, 9, 9, 9, 9], &TWO, 0x80), None);
        }
    }

    #[test]
    fn values_without_a_line_are_not_allowed() {
        let allowed = |value| after([value, 1, 0x80, 0, 0, 0xFF], &FIVE, 0).is_some();
        let values: Vec<u8> = (0..=255).filter(|&value| allowed(value)).collect();
        assert_eq!(
            values,
            [0x20, 0x24, 0x26, 0x28, 0x2C, 0x2E, 0x30, 0x32, 0x34]
        );
    }
}
