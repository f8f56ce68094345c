//! The device: its memory, its state and what each command does to them.

use crate::layout::{self, Event, Expedited, Family, Request, Synchronous};

/// The value of a toggle whose status is present. A posted status counts only
/// with this value.
pub const PRESENT: u8 = 1;

/// The bytes of a device, with the digest of them once it has been asked for.
#[derive(Default)]
pub struct Memory {
    bytes: Vec<u8>,
    digest: Option<u32>,
}

impl Memory {
    /// Makes the memory anew, keeping the room it has.
    pub fn fill(&mut self, size: usize, byte: u8) {
        self.bytes.clear();
        self.bytes.resize(size, byte);
        self.digest = None;
    }

    pub fn size(&self) -> usize {
        self.bytes.len()
    }

    pub fn get(&self, address: usize) -> Option<u8> {
        self.bytes.get(address).copied()
    }

    /// Sets one byte; past the end it does nothing.
    pub fn set(&mut self, address: usize, byte: u8) {
        if let Some(place) = self.bytes.get_mut(address) {
            *place = byte;
            self.digest = None;
        }
    }

    fn put<const N: usize>(&mut self, places: &layout::Places<N>, record: &[u8; N]) {
        layout::scatter(&mut self.bytes, places, record);
        self.digest = None;
    }

    pub fn digest(&mut self) -> u32 {
        *self.digest.get_or_insert_with(|| fnv1a(&self.bytes))
    }
}

/// FNV-1a over all bytes, 32 bits.
pub fn fnv1a(bytes: &[u8]) -> u32 {
    bytes.iter().fold(2_166_136_261, |hash: u32, &byte| {
        (hash ^ u32::from(byte)).wrapping_mul(16_777_619)
    })
}

#[derive(Clone, Copy, Debug, PartialEq, Eq)]
pub enum Polled {
    Reset,
    Status,
    Clean,
}

#[derive(Clone, Copy, Debug, PartialEq, Eq)]
pub enum Started {
    Nothing,
    Restarted,
    Taken,
}

/// The device state: everything of a line but its row and its program.
#[derive(Default)]
pub struct Device {
    pub memory: Memory,
    pub restart_waits: bool,
    pub working: bool,
    pub seen: u8,
    pub last: Request,
    pub taken: u32,
    pub events: u32,
    pub expedited: u32,
}

impl Device {
    /// A device that has just been switched on: zeros, and a restart waits.
    pub fn fresh(memory: Memory, size: usize) -> Self {
        let mut device = Device {
            memory,
            restart_waits: true,
            ..Device::default()
        };
        device.memory.fill(size, 0);
        device
    }

    pub fn is_lawful(&self) -> bool {
        let size = self.memory.size();
        (layout::SMALLEST..=layout::LARGEST).contains(&size)
            && (!self.restart_waits
                || !self.working
                    && self.seen == 0
                    && (self.taken, self.events, self.expedited) == (0, 0, 0)
                    && !self.status_present())
    }

    fn status_present(&self) -> bool {
        layout::TOGGLES
            .iter()
            .any(|&toggle| self.memory.bytes[toggle] != 0)
    }

    /// Everything starts over but the last request taken.
    pub fn restart(&mut self) {
        self.memory.fill(self.memory.size(), 0);
        self.restart_waits = true;
        self.working = false;
        self.seen = 0;
        self.taken = 0;
        self.events = 0;
        self.expedited = 0;
    }

    pub fn read(&self, address: usize) -> Option<u8> {
        self.memory.get(address)
    }

    /// Whether the byte was heard: below the end, and in the device's half
    /// only to clear a toggle.
    pub fn write(&mut self, address: usize, byte: u8) -> bool {
        let heard = if address < layout::UNIT_HALF {
            byte == 0 && layout::is_toggle(address)
        } else {
            address < self.memory.size()
        };
        if heard {
            self.memory.set(address, byte);
        }
        heard
    }

    pub fn start(&mut self) -> Started {
        let offered = self.memory.bytes[layout::CUSYN];
        if self.restart_waits || offered == self.seen {
            Started::Nothing
        } else if self.working {
            self.restart();
            Started::Restarted
        } else {
            self.last = layout::gather(&self.memory.bytes, &layout::REQUEST);
            self.taken = self.taken.wrapping_add(1);
            self.seen = offered;
            self.working = true;
            Started::Taken
        }
    }

    pub fn acknowledge(&mut self) {
        self.restart_waits = false;
    }

    /// Posts a status under this value of its toggle, if no restart waits and
    /// the toggle is free.
    fn post<const N: usize>(&mut self, family: &Family<N>, record: &[u8; N], value: u8) -> bool {
        let free = !self.restart_waits && self.memory.bytes[family.toggle] == 0;
        if free {
            self.memory.put(&family.places, record);
            self.memory.set(family.toggle, value);
        }
        free
    }

    /// Only a working device ends its request, and it then stops working.
    pub fn post_synchronous(&mut self, record: &Synchronous, value: u8) -> bool {
        let posted = self.working && self.post(&layout::SYNCHRONOUS, record, value);
        self.working &= !posted;
        posted
    }

    pub fn post_event(&mut self, record: &Event, value: u8) -> bool {
        let posted = self.post(&layout::ASYNCHRONOUS, record, value);
        let counted = posted && value == PRESENT;
        self.events = self.events.wrapping_add(counted.into());
        posted
    }

    pub fn post_expedited(&mut self, record: &Expedited, value: u8) -> bool {
        let posted = self.post(&layout::EXPEDITED, record, value);
        let counted = posted && value == PRESENT;
        self.expedited = self.expedited.wrapping_add(counted.into());
        posted
    }

    /// What a Poll answers, once the program has acted.
    pub fn polled(&self) -> Polled {
        if self.restart_waits {
            Polled::Reset
        } else if self.status_present() {
            Polled::Status
        } else {
            Polled::Clean
        }
    }
}

#[cfg(test)]
mod tests {
    use super::*;

    fn idle(size: usize) -> Device {
        let mut device = Device::fresh(Memory::default(), size);
        device.acknowledge();
        device
    }

    #[test]
    fn the_device_half_hears_only_a_cleared_toggle() {
        let mut device = idle(256);
        device.memory.fill(256, 7);
        for address in 0..0x40 {
            for byte in 0..=255 {
                let allowed = byte == 0 && [0x00, 0x01, 0x26].contains(&address);
                assert_eq!(
                    device.write(address, byte),
                    allowed,
                    "{address:#x} {byte:#x}"
                );
            }
        }
        let kept = device.memory.bytes[..0x40]
            .iter()
            .filter(|&&b| b == 7)
            .count();
        assert_eq!(kept, 0x40 - 3);
    }

    #[test]
    fn the_last_byte_is_heard_and_the_next_is_not() {
        for size in [256, 257, 32_767, 32_768] {
            let mut device = idle(size);
            assert!(device.write(size - 1, 0xAB));
            assert_eq!(device.read(size - 1), Some(0xAB));
            assert!(!device.write(size, 0));
            assert_eq!(device.read(size), None);
        }
    }

    #[test]
    fn a_request_is_taken_in_the_order_of_its_record() {
        let mut device = idle(256);
        for (i, place) in layout::REQUEST.into_iter().enumerate() {
            device.write(place, i as u8 + 1);
        }
        assert_eq!(device.start(), Started::Nothing);
        device.write(layout::CUSYN, 9);
        assert_eq!(device.start(), Started::Taken);
        assert_eq!(device.last, [1, 2, 3, 4, 5, 6, 7, 8]);
        assert_eq!((device.seen, device.taken, device.working), (9, 1, true));
        assert_eq!(device.start(), Started::Nothing);
    }

    #[test]
    fn a_new_start_while_working_restarts_and_keeps_the_last_request() {
        let mut device = idle(256);
        device.write(layout::CUFRV, 3);
        device.write(layout::CUSYN, 1);
        device.start();
        device.write(layout::CUSYN, 2);
        assert_eq!(device.start(), Started::Restarted);
        assert_eq!(device.last[0], 3);
        assert_eq!(device.read(layout::CUFRV), Some(0));
        assert_eq!((device.seen, device.taken), (0, 0));
        assert_eq!(device.polled(), Polled::Reset);
        assert!(device.is_lawful());
    }

    #[test]
    fn counts_wrap() {
        let mut device = idle(256);
        device.taken = u32::MAX;
        device.events = u32::MAX;
        device.expedited = u32::MAX;
        device.write(layout::CUSYN, 1);
        device.start();
        assert!(device.post_event(&[0; 6], PRESENT) && device.post_expedited(&[0; 6], PRESENT));
        assert_eq!((device.taken, device.events, device.expedited), (0, 0, 0));
    }

    #[test]
    fn the_digest_follows_the_bytes() {
        let mut memory = Memory::default();
        assert_eq!(memory.digest(), 0x811C_9DC5);
        memory.fill(1, b'a');
        assert_eq!(memory.digest(), 0xE40C_292C);
        memory.set(0, b'b');
        assert_eq!(memory.digest(), 0xE70C_2DE5);
        memory.set(1, b'a');
        assert_eq!(memory.digest(), 0xE70C_2DE5);
    }
}
