//! Cases that leave nothing out: every command of every call lost, every event
//! at every state of the terminals, every pair of refusals, every turn.

use crate::running::Case;
use crate::unit_maker::{Maker, Record};

/// All of them; with all values of DAEV, or only the listed ones and some more.
pub fn cases(all_events: bool) -> impl Iterator<Item = Case> {
    silences()
        .chain(late_silences())
        .chain(events(all_events))
        .chain(refusals())
        .chain(turns())
}

// ---------------------------------------------------------------- silences

/// How a port is brought to where the line is exchanged for one that loses.
const NEW: &str = "C,00,4041FFFFFF";
const ACTIVE: &str = "C,00,4041FFFFFF L,00,terminal A,00";
const IDLE: &str = "C,00,4041FFFFFF L,00,terminal A,00 F,00,00000000 P,00 K,00";
const ONLINE: &str = "C,00,4041FFFFFF L,00,terminal A,00 E,00,2801C0000000 P,00 V,00";

/// Lines to exchange it for, with the value that the device has seen by then.
const RESTARTED: &str = "L,00,state,256,1,0,00,0000000000000000,0,0,0,0,00";
const RESTING: &str = "L,00,state,256,0,0,01,0210000000FF0000,1,0,0,0,00";
const WORKING: &str = "L,00,state,256,0,1,01,0210000000FF0000,1,0,0,0,00";

struct Scenario {
    before: &'static str,
    notes: &'static str,
    line: &'static str,
    /// What the device is told, and the calls whose commands are lost.
    calls: &'static str,
}

const fn scenario(
    before: &'static str,
    notes: &'static str,
    line: &'static str,
    calls: &'static str,
) -> Scenario {
    Scenario {
        before,
        notes,
        line,
        calls,
    }
}

const ATTACH: Scenario = scenario(NEW, "", "L,00,terminal", "A,00");

const SCENARIOS: [Scenario; 32] = [
    ATTACH,
    scenario(NEW, "", RESTING, "A,00"),
    scenario(NEW, "M,0000,01", RESTING, "A,00"),
    scenario(IDLE, "", RESTING, "P,00"),
    scenario(ACTIVE, "", RESTARTED, "P,00"),
    scenario(IDLE, "", RESTARTED, "P,00"),
    scenario(ACTIVE, "M,0000,01 M,0001,01 M,0026,01", RESTING, "P,00"),
    scenario(ACTIVE, "M,0000,01 M,0001,01 M,0026,02", RESTING, "P,00"),
    scenario(ACTIVE, "M,0000,01 M,0001,80 M,0026,01", RESTING, "P,00"),
    scenario(IDLE, "M,0000,FF M,0001,01 M,0026,01", RESTING, "P,00"),
    scenario(
        ACTIVE,
        "",
        WORKING,
        "E,00,2C0102030405 F,00,0A0B0C0D P,00 K,00 V,00",
    ),
    scenario(IDLE, "M,0045,01", RESTING, "Q,00,0D01020304FF0000,"),
    scenario(IDLE, "M,0045,01", RESTING, "Q,00,0401000304FF00FF,5A"),
    scenario(
        IDLE,
        "M,0045,01",
        RESTING,
        "Q,00,0C01000304FF0080,A1A2A3A4A5",
    ),
    scenario(
        ONLINE,
        "M,0001,01",
        RESTING,
        "P,00 K,00 Q,00,0301000304410080,A1",
    ),
    scenario(
        IDLE,
        "M,0001,01 M,0045,01",
        RESTING,
        "Q,00,0C01000304FF0080,A1 F,00,01020304 P,00 K,00",
    ),
    scenario(
        ACTIVE,
        "M,0001,01 M,0002,A1 M,0003,A2 M,0004,A3 M,0005,A4",
        RESTING,
        "P,00 K,00",
    ),
    scenario(
        ACTIVE,
        "M,0000,01 M,0007,2C M,0006,A6",
        WORKING,
        "P,00 V,00",
    ),
    scenario(
        IDLE,
        "M,0000,01 M,0007,28 M,0008,01 M,0009,80",
        RESTING,
        "P,00 V,00",
    ),
    scenario(
        ONLINE,
        "M,0000,01 M,0007,28 M,0008,02",
        RESTING,
        "P,00 V,00",
    ),
    scenario(
        ONLINE,
        "M,0000,01 M,0007,22 M,0006,41",
        RESTING,
        "P,00 V,00",
    ),
    scenario(
        ACTIVE,
        "M,0000,01 M,0007,22 M,0006,41",
        RESTING,
        "P,00 V,00",
    ),
    scenario(IDLE, "M,0000,01 M,0007,21", RESTING, "P,00 V,00"),
    scenario(
        ACTIVE,
        "M,0000,01 M,0007,20 M,0008,02 M,0006,FF",
        RESTING,
        "P,00 V,00",
    ),
    scenario(
        IDLE,
        "M,0000,01 M,0007,20 M,0008,02 M,0006,FF",
        RESTING,
        "P,00 V,00",
    ),
    scenario(
        IDLE,
        "M,0026,01 M,0021,A1 M,0020,A2 M,005C,A3",
        RESTING,
        "P,00 X,00,B1B2B3B4",
    ),
    scenario(ACTIVE, "M,0026,01 M,005F,A6", WORKING, "P,00 X,00,B1B2B3B4"),
    scenario(IDLE, "M,0080,A1", RESTING, "G,00,0080,1,4"),
    scenario(
        IDLE,
        "M,0080,A1 M,0081,A2 M,0085,A6",
        RESTING,
        "G,00,0080,6,8",
    ),
    scenario(ACTIVE, "", WORKING, "D,00"),
    scenario(IDLE, "", RESTING, "D,00"),
    scenario(
        ACTIVE,
        "M,0000,01 M,0001,01 M,0026,01 M,0007,2E",
        RESTING,
        "P,00 X,00,00000000 K,00 V,00",
    ),
];

/// What is asked of the port afterwards, so that what was lost comes out.
const AFTER: &str = "N P,00 A,00 A,00 F,00,01020304 P,00 K,00 D,00";

impl Scenario {
    fn case(&self, marks: &str) -> Case {
        let mut maker = Maker::new("bsc");
        maker.lines(self.before);
        maker.lines(self.notes);
        maker.lines(marks);
        maker.lines(self.line);
        for call in self.calls.split(' ').chain(AFTER.split(' ')) {
            maker.call(0, call);
        }
        maker.into_case()
    }
}

/// So many marks of a kind after those that pass, and the rest passes again.
fn window(first: usize, kinds: &str, count: usize) -> String {
    let lost: String = kinds.chars().cycle().take(count).collect();
    format!(
        "{}{lost}{}",
        "P".repeat(first),
        "P".repeat(64 - first - count)
    )
}

/// Each command of each scenario lost once, 31 and 32 times.
fn silences() -> impl Iterator<Item = Case> {
    const KINDS: [&str; 4] = ["U", "H", "UH", "HU"];
    SCENARIOS.iter().flat_map(|scenario| {
        (0..=32).flat_map(move |first| {
            KINDS.into_iter().flat_map(move |kinds| {
                [1, 31, 32]
                    .into_iter()
                    .map(move |count| scenario.case(&format!("Z,{}", window(first, kinds, count))))
            })
        })
    })
}

/// Of the outer losing line, so many marks lose.
const OUTER: usize = 20;
/// An attach sends 82 commands; a few more are after it.
const LATEST: usize = 85;

/// How many commands pass before one is lost so often in a row, where an outer
/// line loses from one mark on, and the inner one the rest from another on.
fn passing(outer: usize, inner: usize, count: usize) -> Option<usize> {
    let (mut passed, mut row, mut reached) = (0, 0, 0);
    for sending in 0.. {
        let mut lost = (outer..outer + OUTER).contains(&(sending % 64));
        if !lost {
            lost = (inner..inner + count - OUTER).contains(&(reached % 64));
            reached += 1;
        }
        if lost {
            row += 1;
        } else {
            row = 0;
            passed += 1;
        }
        if row == count {
            return Some(passed);
        }
        if passed > LATEST {
            break;
        }
    }
    None
}

/// The marks that let so many commands pass and then lose one so often: 64
/// marks alone cannot, where it is more than half of them.
fn late_marks(position: usize, kinds: &str, count: usize) -> Option<String> {
    (0..=64 - OUTER).find_map(|outer| {
        let inner = (0..=64 + OUTER - count)
            .find(|&inner| passing(outer, inner, count) == Some(position))?;
        let below = window(inner, kinds, count - OUTER);
        Some(format!("Z,{below} Y,{}", window(outer, "U", OUTER)))
    })
}

/// The commands of an attach that 64 marks do not get to.
fn late_silences() -> impl Iterator<Item = Case> {
    (30..=LATEST).flat_map(|position| {
        ["U", "H", "UH"].into_iter().flat_map(move |kinds| {
            let marks = [31, 32].map(|count| late_marks(position, kinds, count));
            marks.into_iter().flatten().map(|marks| ATTACH.case(&marks))
        })
    })
}

// ------------------------------------------------------------------- events

const ATTACHMENTS: [&str; 3] = ["bsc", "local", "sna"];

/// DAEP2, DAEP3 and DALTAD, right for one event or another.
const ARGUMENTS: [[u8; 3]; 7] = [
    [0x00, 0x00, 0xFF],
    [0x80, 0x00, 0x40],
    [0xF8, 0xF0, 0x44],
    [0x04, 0x00, 0x42],
    [0x08, 0x0F, 0xFF],
    [0x40, 0x01, 0x41],
    [0xFF, 0x10, 0x99],
];

/// The five addresses, and those with the second and the fourth left out.
const CONFIGURED: [(&str, u8); 2] = [("4041424344", 0xF8), ("40FF42FF44", 0xA8)];

fn values(all: bool) -> Vec<u8> {
    if all {
        (0..=255).collect()
    } else {
        [0x00]
            .into_iter()
            .chain(0x1E..=0x37)
            .chain([0xFF])
            .collect()
    }
}

/// Every value with every second byte from 0 to 5, at every set of terminals
/// that can be online, for every attachment.
fn events(all: bool) -> impl Iterator<Item = Case> {
    let pairs = values(all)
        .into_iter()
        .flat_map(|value| (0..=5).map(move |kind| (value, kind)));
    pairs.flat_map(|(value, kind)| {
        ATTACHMENTS.into_iter().flat_map(move |attachment| {
            CONFIGURED
                .into_iter()
                .flat_map(move |(addresses, configured)| {
                    (0..32)
                        .map(|set| set << 3)
                        .filter(move |online| online & !configured == 0)
                        .map(move |online| event_case(attachment, addresses, online, [value, kind]))
                })
        })
    })
}

fn event_case(attachment: &str, addresses: &str, online: u8, [value, kind]: [u8; 2]) -> Case {
    let mut maker = Maker::new(attachment);
    maker.lines(&format!("C,00,{addresses} L,00,terminal"));
    let here = [online, 0x00, 0x40 + online.leading_zeros() as u8];
    let there = [!online & 0xF8, 0x00, 0x40 + online.leading_ones() as u8];
    for [map, third, terminal] in ARGUMENTS.into_iter().chain([here, there]) {
        bring_online(&mut maker, online, (value ^ kind) & 1 == 0);
        maker.lines(&format!(
            "E,00,{value:02X}{kind:02X}{map:02X}{third:02X}5A{terminal:02X} P,00"
        ));
        maker.call(0, "V,00");
    }
    maker.into_case()
}

/// Connects the port with these terminals online, if it isn't so already.
fn bring_online(maker: &mut Maker, online: u8, collected: bool) {
    let record: Record = maker.record(0);
    if record.is_connected() {
        if record.online == online {
            return;
        }
        maker.line("D,00");
    }
    maker.line("A,00");
    if collected {
        maker.lines("F,00,00000000 P,00 K,00");
    }
    if online != 0 {
        maker.lines(&format!("E,00,2801{online:02X}000000 P,00 V,00"));
    }
}

// ----------------------------------------------------------------- refusals

/// Port 0 is idle with its first terminal online, port 1 active with the same,
/// port 2 disconnected, port 3 not configured, and port 4 has no line.
const FIVE_PORTS: &str = "C,00,4041FFFFFF C,01,4041FFFFFF C,02,4041FFFFFF C,04,4041FFFFFF \
    L,00,terminal L,01,terminal L,02,terminal L,03,terminal A,00 A,01 F,00,00000000 P,00 K,00 \
    E,00,280180000000 P,00 V,00 E,01,280180000000 P,01 V,01";
const PORTS: [u8; 8] = [0, 1, 2, 3, 4, 31, 32, 99];

fn refusals() -> impl Iterator<Item = Case> {
    PORTS.into_iter().flat_map(|port| {
        let plain = std::iter::once(refused_plain(port));
        let marked = (0..8).map(move |marks| refused_marked(port, marks));
        let requests = (0x00..=0x11).chain([0x82, 0xFF]);
        let requests = requests.map(move |code| refused_requests(port, code));
        let sized = [256, 300, 4223, 4224, 4225, 32_768];
        let sized = sized.into_iter().map(move |size| refused_data(port, size));
        plain.chain(marked).chain(requests).chain(sized)
    })
}

/// The calls without a mark or data, and every set of equal addresses.
fn refused_plain(port: u8) -> Case {
    let mut maker = Maker::new("bsc");
    maker.lines(FIVE_PORTS);
    for equal in 0..32u8 {
        for other in [0xFF, 0x41] {
            let byte = |at: usize| match equal << at & 0x10 {
                0 if other == 0xFF => other,
                0 => other + at as u8,
                _ => 0x40,
            };
            let addresses: String = (0..5).map(|at| format!("{:02X}", byte(at))).collect();
            maker.call(port, format!("C,{port:02},{addresses}"));
        }
    }
    maker.lines("C,02,4041FFFFFF C,03,FFFFFFFFFF");
    for call in ["P", "K", "V", "A", "A", "D", "D", "P", "A"] {
        maker.call(port, format!("{call},{port:02}"));
    }
    maker.all_records();
    maker.into_case()
}

/// Collect, take and expedite with every set of marks, in every order.
fn refused_marked(port: u8, marks: u8) -> Case {
    let mut maker = Maker::new("bsc");
    for order in ["XKV", "XVK", "KXV", "KVX", "VXK", "VKX"] {
        maker.lines("U,bsc");
        maker.lines(FIVE_PORTS);
        let toggles = [0x26, 0x01, 0x00]
            .into_iter()
            .zip([marks >> 2, marks >> 1, marks]);
        for (place, mark) in toggles {
            maker.line(format!("M,{place:04X},{:02X}", mark & 1));
        }
        maker.line("M,0007,30");
        maker.line(format!(
            "L,{:02},state,256,0,0,01,0210000000FF0000,1,0,0,0,00",
            port.min(31)
        ));
        maker.call(port, format!("P,{port:02}"));
        for call in order.chars() {
            let response = if call == 'X' { ",A1A2A3A4" } else { "" };
            maker.call(port, format!("{call},{port:02}{response}"));
        }
    }
    maker.into_case()
}

/// An idle port again, where a request was accepted.
fn collect(maker: &mut Maker, port: u8) {
    if port == 0 && maker.record(0).state != crate::unit_maker::State::Idle {
        maker.lines("F,00,00000000 P,00 K,00");
    }
}

/// One code with every kind of first parameter, terminal and place of data.
fn refused_requests(port: u8, code: u8) -> Case {
    let mut maker = Maker::new("bsc");
    maker.lines(FIVE_PORTS);
    let parameters = if code == 2 { 0..=255 } else { 0x10..=0x11 };
    for parameter in parameters {
        for terminal in [0x40, 0x41, 0x42, 0xFF] {
            for (address, data) in [(0x80, "A1"), (0x7F, "A1"), (0xFF, "A1A2"), (0xFFFF, "")] {
                let request = format!("{code:02X}{parameter:02X}000000{terminal:02X}{address:04X}");
                maker.line(format!("Q,{port:02},{request},{data}"));
                maker.line(format!("R,{:02}", port.min(31)));
                collect(&mut maker, port);
            }
        }
    }
    maker.all_records();
    maker.into_case()
}

/// Requests and fetches at the edges of a memory of this size, and codes and
/// terminals that are refused besides.
fn refused_data(port: u8, size: usize) -> Case {
    let mut maker = Maker::new("bsc");
    maker.lines(FIVE_PORTS);
    if port <= 1 {
        maker.line("M,0045,01");
        maker.line(format!(
            "L,{port:02},state,{size},0,{port},01,0210000000FF0000,1,0,0,0,00"
        ));
    }
    let room = size - 0x80;
    let lengths = [0, 1, 2, room - 1, room, room + 1, 4095, 4096, 4097, 4100];
    for address in [0, 0x7F, 0x80, 0x81, size - 2, size - 1, size, 0xFFFF] {
        for length in lengths.into_iter().filter(|&length| length <= 4100) {
            let data = "A5".repeat(length);
            for start in ["0000000000FF", "030000000041", "010000000041"] {
                maker.line(format!("Q,{port:02},{start}{address:04X},{data}"));
                maker.line(format!("T,{:02}", port.min(31)));
                collect(&mut maker, port);
            }
            for buffer in [0, 1, length.max(1) - 1, length, length + 1, 8192] {
                maker.line(format!("G,{port:02},{address:04X},{length},{buffer}"));
            }
        }
        for length in [8192, 65_536 - address, 65_537, u32::MAX as usize] {
            maker.line(format!("G,{port:02},{address:04X},{length},8192"));
        }
    }
    maker.all_records();
    maker.into_case()
}

// -------------------------------------------------------------------- turns

/// From every port to every other, with none, one or both marked expedited.
fn turns() -> impl Iterator<Item = Case> {
    (0..32).flat_map(|from| (0..32).map(move |to| turn_case(from, to)))
}

fn turn_case(from: u8, to: u8) -> Case {
    let mut maker = Maker::new("bsc");
    maker.lines(&format!("N C,{from:02},40FFFFFFFF N N"));
    maker.lines(&format!(
        "C,{to:02},40FFFFFFFF N N N C,00,40FFFFFFFF N N N N"
    ));
    for port in [from, to] {
        maker.lines(&format!("L,{port:02},terminal A,{port:02} N M,0026,01"));
        maker.lines(&format!(
            "L,{port:02},state,256,0,0,01,0210000000FF0000,1,0,0,0,00"
        ));
        maker.lines(&format!("P,{port:02} N N"));
    }
    for port in [to, from] {
        maker.lines(&format!("X,{port:02},00000000 N N N N"));
    }
    maker.lines(&format!("D,{to:02} C,{to:02},FFFFFFFFFF N N N N"));
    maker.into_case()
}

#[cfg(test)]
mod tests {
    use super::*;

    #[test]
    fn every_command_of_an_attach_can_be_lost() {
        for position in 30..82 {
            for count in [31, 32] {
                assert!(late_marks(position, "U", count).is_some(), "{position}");
            }
        }
    }

    /// The last answer to an `A` line of the case is not asked: the first is.
    fn first_attach(marks: &str) -> String {
        let mut maker = Maker::new("bsc");
        maker.lines(NEW);
        maker.lines(marks);
        maker.lines("L,00,terminal");
        maker.line("A,00").to_owned()
    }

    #[test]
    fn late_marks_lose_the_command_they_are_for() {
        for (position, told) in [
            (66, "A,00,21,write,0054,none"),
            (70, "A,00,21,write,0058,none"),
            (71, "A,00,21,write,0044,none"),
            (79, "A,00,21,write,0001,none"),
            (80, "A,00,21,write,0045,none"),
            (81, "A,00,21,start,0000,none"),
        ] {
            for kinds in ["U", "H"] {
                let marks = late_marks(position, kinds, 32).unwrap();
                assert_eq!(first_attach(&marks), told);
                let marks = late_marks(position, kinds, 31).unwrap();
                assert_eq!(first_attach(&marks), "A,00,00");
            }
        }
    }

    #[test]
    fn each_set_of_terminals_comes_about() {
        for online in (0..32u8).map(|set| set << 3) {
            let mut maker = Maker::new("bsc");
            maker.lines("C,00,4041424344 L,00,terminal");
            bring_online(&mut maker, online, true);
            assert_eq!(maker.record(0).online, online);
        }
    }
}
