//! Expected answers are worked out by hand from docs/INTERFACE.md and
//! docs/UNITRUN.md.

use super::*;
use crate::stream::Session as _;

const READY: &str = "0210000000FF0000";
const CONNECT: &str = "C,00,4041FFFFFF L,00,terminal A,00";
/// Connected and idle: the first request has ended and is collected.
const IDLE: &str = "C,00,4041FFFFFF L,00,terminal A,00 F,00,00000000 P,00 K,00";

/// Answers all lines of a text, with blanks in place of LF, and checks the law.
fn run(text: &str) -> String {
    let (mut session, mut out) = (Session::new(true), Vec::new());
    for line in text.split(' ') {
        session.answer(line.as_bytes(), &mut out);
    }
    assert!(session.verdict().unwrap().is_ok(), "{text}");
    String::from_utf8(out)
        .unwrap()
        .trim_end()
        .replace('\n', " ")
}

fn ends(text: &str, answers: &str) {
    let all = run(text);
    assert!(all.ends_with(answers), "{text}\n{all}\n{answers}");
}

/// A line in place of the one there is: not working, a value seen of 01 as
/// after the first request, and with these notes.
fn exchange(notes: &str) -> String {
    format!("{notes} L,00,state,256,0,0,01,{READY},1,0,0,0,00")
}

/// Marks that let `passing` commands pass, lose `count` and let the rest pass.
fn marks(passing: usize, mark: &str, count: usize) -> String {
    let rest = 64 - passing - count;
    format!(
        "Z,{}{}{}",
        "P".repeat(passing),
        mark.repeat(count),
        "P".repeat(rest)
    )
}

#[test]
fn a_terminal_is_brought_up_and_its_first_request_collected() {
    assert_eq!(
        run("C,00,40FFFFFFFF L,00,terminal A,00 F,00,00000000 P,00 K,00 K,00"),
        "C,00,00 L,00,made A,00,00 F,00,told P,00,00,010 K,00,00,00000000 K,00,10"
    );
}

#[test]
fn the_record_follows_the_calls() {
    ends(
        &format!("{CONNECT} R,00 F,00,01020304 P,00 R,00 K,00 R,00 P,00 R,00 D,00 R,00"),
        "A,00,00 R,00,4041FFFFFF,active,01,000,00,0210000000FF0000 F,00,told P,00,00,010 \
         R,00,4041FFFFFF,active,01,010,00,0210000000FF0000 K,00,00,01020304 \
         R,00,4041FFFFFF,idle,01,000,00 P,00,00,000 R,00,4041FFFFFF,idle,01,000,00 \
         D,00,26,none,0000,none R,00,4041FFFFFF,disconnected",
    );
}

#[test]
fn port_31_is_served_and_32_is_not() {
    assert_eq!(
        run("C,31,40FFFFFFFF L,31,terminal A,31 N C,32,40FFFFFFFF A,32 P,32 D,99 R,32 T,32"),
        "C,31,00 L,31,made A,31,00 N,31 C,32,01 A,32,01 P,32,01 D,99,01 ?,13 ?,13"
    );
}

#[test]
fn equal_addresses_are_refused_and_the_old_ones_stay() {
    assert_eq!(
        run("C,00,4041FFFFFF C,00,4040FFFFFF R,00 C,00,FFFFFFFFFF A,00 N"),
        "C,00,00 C,00,02 R,00,4041FFFFFF,disconnected C,00,00 ?,13 N,none"
    );
    ends(
        &format!("{CONNECT} C,00,4040FFFFFF C,00,FFFFFFFFFF"),
        "C,00,02 C,00,04",
    );
}

#[test]
fn thirty_one_silences_go_on_and_thirty_two_do_not() {
    for mark in ["U", "H"] {
        let attach = |count| {
            format!(
                "C,00,40FFFFFFFF {} L,00,terminal A,00",
                marks(0, mark, count)
            )
        };
        ends(&attach(31), "A,00,00");
        ends(&attach(32), "A,00,21,poll,0000,none");
        let told = run(&format!("{} R,00 T,00", attach(32)));
        assert!(told.contains("R,00,40FFFFFFFF,disconnected"), "{told}");
        assert!(
            told.contains("T,00,1,0,00,0000000000000000,0,0,0,32,"),
            "{told}"
        );
    }
}

#[test]
fn an_attach_that_is_broken_off_late_accepts_nothing() {
    // Of the outer marks 20 lose, of the inner ones 12, and only at the second
    // turn of the outer ones does one follow the other: 43 and 44 commands have
    // then reached the inner line, 87, which is 23 on its second turn.
    let outer = format!("{}{}{}", "P".repeat(43), "U".repeat(20), "P");
    // Twelve of the 87 were lost there, so 75 were answered: Poll, Acknowledge,
    // 64 zeros, five addresses and the first four bytes of the request.
    for mark in ["U", "H"] {
        let inner = format!("{}{}{}", "P".repeat(23), mark.repeat(12), "P".repeat(29));
        ends(
            &format!("C,00,40FFFFFFFF Z,{inner} Y,{outer} L,00,terminal A,00 R,00"),
            "A,00,21,write,0049,none R,00,40FFFFFFFF,disconnected",
        );
    }
}

#[test]
fn a_status_or_nothing_to_report_is_reset_and_answered_27() {
    for poke in ["M,0080,01", "M,0026,02"] {
        let text = format!("C,00,40FFFFFFFF {} A,00 R,00 A,00", exchange(poke));
        ends(&text, "A,00,27 R,00,40FFFFFFFF,disconnected A,00,00");
    }
}

#[test]
fn a_bad_toggle_disconnects_and_names_the_read() {
    for (poke, place) in [
        ("M,0000,02", "0000"),
        ("M,0001,FF M,0000,02", "0001"),
        ("M,0026,80 M,0001,FF", "0026"),
    ] {
        let told = format!("P,00,22,read,{place},{READY} R,00,4041FFFFFF,disconnected");
        ends(&format!("{CONNECT} {} P,00 R,00", exchange(poke)), &told);
    }
}

#[test]
fn a_restart_disconnects() {
    let line = "L,00,state,256,1,0,00,0000000000000000,0,0,0,0,00";
    ends(
        &format!("{CONNECT} {line} P,00 P,00"),
        &format!("P,00,23,poll,0000,{READY} P,00,05"),
    );
}

#[test]
fn data_has_to_fit() {
    let request = |address, bytes| format!("Q,00,0100000000FF{address},{}", "5A".repeat(bytes));
    for (address, bytes, answer) in [
        ("0080", 128, "Q,00,00"),
        ("0080", 129, "Q,00,09"),
        ("0000", 0, "Q,00,00"),
        ("FFFF", 0, "Q,00,00"),
        ("007F", 1, "Q,00,09"),
        ("00FF", 1, "Q,00,00"),
        ("0100", 1, "Q,00,09"),
        ("FFFF", 1, "Q,00,09"),
    ] {
        ends(&format!("{IDLE} {}", request(address, bytes)), answer);
    }
    let large = format!("{IDLE} L,00,state,32768,0,0,01,{READY},1,0,0,0,00");
    ends(&format!("{large} {}", request("0080", 4096)), "Q,00,00");
    ends(&format!("{large} {}", request("0080", 4097)), "Q,00,09");
    assert_eq!(request("0080", 4100).len(), Session::LONGEST);
    ends(&format!("{large} {}", request("0080", 4100)), "Q,00,09");
    ends(&format!("{large} {}", request("0080", 4101)), "?,13");
}

#[test]
fn a_start_that_is_sent_again_is_taken_once() {
    let line = exchange(&format!("{} M,0045,01", marks(10, "H", 31)));
    let told = run(&format!("{IDLE} {line} Q,00,0D01020304FF0000, T,00"));
    assert!(
        told.contains("Q,00,00 T,00,0,1,00,0D01020304FF0000,2,0,0,0,"),
        "{told}"
    );
}

#[test]
fn a_request_that_is_broken_off_is_accepted_and_lost() {
    for (passing, command) in [
        (0, "write,0080"),
        (1, "write,0081"),
        (2, "write,0044"),
        (9, "write,0041"),
        (10, "write,0001"),
        (11, "write,0045"),
        (12, "start,0000"),
    ] {
        let line = exchange(&marks(passing, "U", 32));
        ends(
            &format!("{IDLE} {line} Q,00,0100000000FF0080,5A5B R,00"),
            &format!("Q,00,21,{command},0100000000FF0080 R,00,4041FFFFFF,disconnected"),
        );
    }
}

#[test]
fn a_collect_that_is_broken_off_loses_the_request() {
    let line = exchange(&format!("M,0001,01 {}", marks(6, "H", 32)));
    ends(
        &format!("{CONNECT} {line} P,00 K,00"),
        &format!("P,00,00,010 K,00,21,read,0004,{READY}"),
    );
}

#[test]
fn an_event_that_is_not_allowed_disconnects() {
    ends(
        &format!("{CONNECT} E,00,280104000000 P,00 V,00 R,00 P,00 A,00"),
        &format!(
            "P,00,00,001 V,00,24,read,0006,{READY} R,00,4041FFFFFF,disconnected P,00,05 A,00,00"
        ),
    );
}

#[test]
fn events_are_handed_over_and_move_terminals() {
    ends(
        &format!(
            "{IDLE} E,00,280140000000 P,00 V,00 R,00 V,00 E,00,280180000000 P,00 V,00 R,00 \
             Q,00,0300000000410080,41 F,00,00000000 P,00 K,00 E,00,280200000000 P,00 V,00 R,00 \
             Q,00,0300000000410080,41"
        ),
        "P,00,00,001 V,00,00,280140000000 R,00,4041FFFFFF,idle,01,000,40 V,00,10 E,00,told \
         P,00,00,001 V,00,00,280180000000 R,00,4041FFFFFF,idle,01,000,C0 Q,00,00 F,00,told \
         P,00,00,010 K,00,00,00000000 E,00,told P,00,00,001 V,00,00,280200000000 \
         R,00,4041FFFFFF,idle,00,000,00 Q,00,08",
    );
}

#[test]
fn a_permanent_error_is_handed_over_and_disconnects() {
    ends(
        &format!("{CONNECT} E,00,2002000000FF P,00 V,00 R,00"),
        &format!("V,00,25,2002000000FF,write,0000,{READY} R,00,4041FFFFFF,disconnected"),
    );
    ends(
        &format!("{IDLE} E,00,2002000000FF P,00 V,00"),
        "V,00,25,2002000000FF,write,0000,none",
    );
}

#[test]
fn an_expedited_status_comes_first() {
    let toggles = "M,0000,01 M,0001,01 M,0026,01";
    let record = "M,0021,A1 M,0020,A2 M,005C,A3 M,005D,A4 M,005E,A5 M,005F,A6";
    let line = exchange(&format!("{toggles} {record} M,0007,2C"));
    ends(
        &format!("{CONNECT} {line} P,00 K,00 V,00 X,00,B1B2B3B4 R,00 X,00,B1B2B3B4 V,00 K,00 V,00"),
        &format!(
            "P,00,00,111 K,00,11 V,00,11 X,00,00,A1A2A3A4A5A6 \
             R,00,4041FFFFFF,active,01,011,00,{READY} X,00,10 V,00,00,2C0000000000 \
             K,00,00,00000000 V,00,10"
        ),
    );
}

#[test]
fn an_expedite_that_is_broken_off_names_its_command() {
    for (passing, command) in [
        (4, "read,0021"),
        (9, "read,005F"),
        (10, "write,005C"),
        (14, "write,0026"),
        (15, "id,0000"),
    ] {
        let line = exchange(&format!("M,0026,01 {}", marks(passing, "H", 32)));
        ends(
            &format!("{IDLE} {line} P,00 X,00,00000000 R,00"),
            &format!("X,00,21,{command},none R,00,4041FFFFFF,disconnected"),
        );
    }
}

#[test]
fn ended_is_marked_only_at_an_active_port() {
    let line = exchange("M,0001,01");
    ends(&format!("{IDLE} {line} P,00 K,00"), "P,00,00,000 K,00,10");
}

#[test]
fn a_fetch_shows_its_buffer_whatever_happens() {
    let line = exchange("M,0080,01 M,0081,02 M,0082,03 M,00FF,04");
    ends(
        &format!("{IDLE} {line} G,00,0080,3,4 G,00,00FF,1,1 G,00,00FF,2,2 G,00,0080,2,1"),
        "G,00,00,ED34019F,010203EE G,00,00,010C56D3,04 G,00,09,E1F8738D,EEEE G,00,09,6B0B6AB1,EE",
    );
    let lost = exchange(&format!("M,0080,01 {}", marks(1, "U", 32)));
    ends(
        &format!("{IDLE} {lost} G,00,0080,2,2"),
        "G,00,21,read,0081,none,C173DB46,01EE",
    );
}

#[test]
fn the_smallest_refusal_is_the_answer() {
    for (text, answer) in [
        ("Q,00,00000000004000FF,00", "Q,00,06"),
        ("G,00,0000,1,0", "G,00,06,811C9DC5,"),
    ] {
        ends(&format!("{CONNECT} {text}"), answer);
    }
    for (text, answer) in [
        ("Q,00,0E000000004000FF,0000", "Q,00,07"),
        ("Q,00,02110000004000FF,0000", "Q,00,07"),
        ("Q,00,03000000004000FF,0000", "Q,00,08"),
        ("Q,00,0300000000FF00FF,0000", "Q,00,08"),
        ("Q,00,04000000004000FF,0000", "Q,00,09"),
    ] {
        ends(&format!("{IDLE} {text}"), answer);
    }
    assert_eq!(
        run("L,00,terminal A,00 P,00 Q,00,0000000000000000, C,00,40FFFFFFFF P,00 K,00"),
        "L,00,made A,00,03 P,00,03 Q,00,03 C,00,00 P,00,05 K,00,05"
    );
}

#[test]
fn turn_goes_round_and_puts_expedited_ports_first() {
    let three = "C,03,40FFFFFFFF C,07,40FFFFFFFF C,31,40FFFFFFFF";
    ends(&format!("{three} N N N N"), "N,03 N,07 N,31 N,03");
    let marked =
        format!("L,07,terminal A,07 M,0026,01 L,07,state,256,0,0,01,{READY},1,0,0,0,00 P,07");
    ends(
        &format!("{three} {marked} N N X,07,00000000 N N N"),
        "P,07,00,100 N,07 N,07 X,07,00,000000000000 N,31 N,03 N,07",
    );
}

#[test]
fn a_new_unit_has_nothing_of_the_old_one() {
    ends(
        &format!("{IDLE} M,0000,02 U,sna R,00 T,00 N P,00 C,00,40FFFFFFFF L,00,terminal A,00"),
        "U,made R,00,FFFFFFFFFF,disconnected ?,13 N,none ?,13 C,00,00 L,00,made A,00,00",
    );
    ends(
        &format!("U,sna {CONNECT} E,00,2A0000000000 P,00 V,00"),
        "V,00,00,2A0000000000",
    );
    ends(
        &format!("U,local {CONNECT} E,00,2A0000000000 P,00 V,00"),
        &format!("V,00,24,read,0006,{READY}"),
    );
}

const WRONG: &[&str] = &[
    "",
    "N,",
    "N,00",
    "n",
    "U",
    "U,",
    "U,BSC",
    "U,bsc,",
    "A",
    "A,",
    "A,0",
    "A,000",
    "A,00,",
    "A,0A",
    "a,00",
    "C,00",
    "C,00,",
    "C,00,40FFFFFF",
    "C,00,40FFFFFFFFFF",
    "C,00,40fFFFFFFF",
    "P,00,",
    "Q,00",
    "Q,00,0100000000FF0000",
    "Q,00,0100000000FF00,",
    "Q,00,0100000000FF0000,0",
    "Q,00,0100000000FF0000,00,",
    "Q,00,0100000000FF0000,0g",
    "K,00,0",
    "X,00",
    "X,00,000000",
    "X,00,0000000000",
    "G,00,0080,1",
    "G,00,0080,01,1",
    "G,00,0080,1,8193",
    "G,00,0080,4294967296,1",
    "G,00,80,1,1",
    "G,00,0080,1,1,",
    "D,00,",
    "L,00",
    "L,00,",
    "L,00,terminal,",
    "L,32,terminal",
    "L,terminal",
    "E,00,0000000000",
    "E,32,000000000000",
    "F,00,000000000000",
    "F,01,00000000",
    "R,00,",
    "R,32",
    "T,01",
    "T,00,",
    "W,00",
    "Z,PP",
    "Y,",
    "M,0000",
];

#[test]
fn wrong_text_is_refused() {
    for line in WRONG {
        let mut session = Session::new(false);
        let mut out = Vec::new();
        session.answer(b"L,00,terminal", &mut out);
        out.clear();
        session.answer(line.as_bytes(), &mut out);
        assert_eq!(out, b"?,13\n", "{line:?}");
        assert!(session.lines[0].is_some());
    }
}

#[test]
fn the_law_is_found_broken_where_it_is() {
    let mut session = Session::new(true);
    let mut out = Vec::new();
    for line in CONNECT.split(' ') {
        session.answer(line.as_bytes(), &mut out);
    }
    // A device that took one request more than it was given.
    session.lines[0].as_mut().unwrap().device.taken += 1;
    session.answer(b"N", &mut out);
    let fault = session.verdict().unwrap().unwrap_err();
    assert!(fault.contains("port 00: (a)"), "{fault}");
}
