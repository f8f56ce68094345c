//! Function codes: which there are, and what each needs.

use crate::layout::Request;

const WCUS: u8 = 0x02;

/// Whether the first parameter of WCUS names a status of the control unit.
fn is_status_report(parameter: u8) -> bool {
    matches!(
        parameter,
        0x01..=0x03 | 0x10 | 0x20 | 0x30..=0x31 | 0x40..=0x42 | 0x51..=0x5C | 0x60..=0x61 | 0x70..=0x71
    )
}

/// Whether the code is in the table, and WCUS with a parameter of its list.
pub fn is_listed(&[code, parameter, ..]: &Request) -> bool {
    matches!(code, 0x01..=0x0D) && (code != WCUS || is_status_report(parameter))
}

/// WDAT, WLCC, LOCK, RDAT, PDAT and CTCCS are for one logical terminal.
pub fn needs_online_terminal(code: u8) -> bool {
    matches!(code, 0x03 | 0x06 | 0x07 | 0x08 | 0x0A | 0x0B)
}

#[cfg(test)]
mod tests {
    use super::*;

    #[test]
    fn thirteen_codes_are_listed_and_six_need_a_terminal() {
        let listed = (0..=255).filter(|&code| is_listed(&[code, 0x10, 0, 0, 0, 0, 0, 0]));
        assert_eq!(listed.count(), 13);
        let needing: Vec<u8> = (0..=255)
            .filter(|&code| needs_online_terminal(code))
            .collect();
        assert_eq!(needing, [0x03, 0x06, 0x07, 0x08, 0x0A, 0x0B]);
    }

    #[test]
    fn wcus_takes_26_parameters_and_other_codes_any() {
        let count = |code| {
            let taken =
                (0..=255).filter(|&parameter| is_listed(&[code, parameter, 0, 0, 0, 0, 0, 0]));
            taken.count()
        };
        assert_eq!(
            (count(0x02), count(0x01), count(0x0E), count(0x00)),
            (26, 256, 0, 0)
        );
    }
}
