//! Where things lie in a device's memory: fields, records and their places.

pub const DPASTAT: usize = 0x00;
pub const DPSSTAT: usize = 0x01;
pub const DSSV: usize = 0x02;
pub const DSSP: usize = 0x03;
pub const DSSP2: usize = 0x04;
pub const DSSP3: usize = 0x05;
pub const DALTAD: usize = 0x06;
pub const DAEV: usize = 0x07;
pub const DAEP: usize = 0x08;
pub const DAEP2: usize = 0x09;
pub const DAEP3: usize = 0x0A;
pub const DAEP4: usize = 0x0B;
pub const EXFLT: usize = 0x20;
pub const EXFRQ: usize = 0x21;
pub const EXFAK: usize = 0x26;

/// First address of the unit's half; every address below is the device's.
pub const UNIT_HALF: usize = 0x40;

/// Two bytes, the high one first.
pub const CUDP: usize = 0x40;
pub const CULTAD: usize = 0x42;
pub const CUFRV: usize = 0x44;
pub const CUSYN: usize = 0x45;
pub const CUFRP1: usize = 0x46;
pub const CUFRP2: usize = 0x47;
pub const CUFRP3: usize = 0x48;
pub const CUFRP4: usize = 0x49;
/// The LT addresses, CULTA1 to CULTA5.
pub const CULTA: Places<5> = [0x54, 0x55, 0x56, 0x57, 0x58];
pub const EXFD1: usize = 0x5C;
pub const EXFD2: usize = 0x5D;
pub const EXFD3: usize = 0x5E;
pub const EXFD4: usize = 0x5F;

/// First address of the data area; the unit's half ends before it.
pub const DATA_AREA: usize = 0x80;

pub const SMALLEST: usize = 256;
pub const LARGEST: usize = 32_768;

pub type Request = [u8; 8];
pub type Synchronous = [u8; 4];
pub type Event = [u8; 6];
pub type Expedited = [u8; 6];

/// The places of a record, in the order of the record.
pub type Places<const N: usize> = [usize; N];

pub const REQUEST: Places<8> = [
    CUFRV,
    CUFRP1,
    CUFRP2,
    CUFRP3,
    CUFRP4,
    CULTAD,
    CUDP,
    CUDP + 1,
];

/// Where the second parameter stands in a request record.
pub const SECOND_PARAMETER: usize = 2;

/// The four places of the expedited record that take the response.
pub const EXFD: Places<4> = [EXFD1, EXFD2, EXFD3, EXFD4];

/// A toggle with its record.
pub struct Family<const N: usize> {
    pub toggle: usize,
    pub places: Places<N>,
}

pub const SYNCHRONOUS: Family<4> = Family {
    toggle: DPSSTAT,
    places: [DSSV, DSSP, DSSP2, DSSP3],
};

pub const ASYNCHRONOUS: Family<6> = Family {
    toggle: DPASTAT,
    places: [DAEV, DAEP, DAEP2, DAEP3, DAEP4, DALTAD],
};

pub const EXPEDITED: Family<6> = Family {
    toggle: EXFAK,
    places: [EXFRQ, EXFLT, EXFD1, EXFD2, EXFD3, EXFD4],
};

pub const TOGGLES: Places<3> = [SYNCHRONOUS.toggle, ASYNCHRONOUS.toggle, EXPEDITED.toggle];

pub fn is_toggle(address: usize) -> bool {
    TOGGLES.contains(&address)
}

/// Reads a record.
pub fn gather<const N: usize>(memory: &[u8], places: &Places<N>) -> [u8; N] {
    places.map(|place| memory[place])
}

/// Writes a record.
pub fn scatter<const N: usize>(memory: &mut [u8], places: &Places<N>, record: &[u8; N]) {
    for (&place, &byte) in places.iter().zip(record) {
        memory[place] = byte;
    }
}

#[cfg(test)]
mod tests {
    use super::*;

    /// Name, address, length and whether the field is in the device's half.
    const FIELDS: [(&str, usize, usize, bool); 33] = [
        ("DPASTAT", 0x00, 1, true),
        ("DPSSTAT", 0x01, 1, true),
        ("DSSV", 0x02, 1, true),
        ("DSSP", 0x03, 1, true),
        ("DSSP2", 0x04, 1, true),
        ("DSSP3", 0x05, 1, true),
        ("DALTAD", 0x06, 1, true),
        ("DAEV", 0x07, 1, true),
        ("DAEP", 0x08, 1, true),
        ("DAEP2", 0x09, 1, true),
        ("DAEP3", 0x0A, 1, true),
        ("DAEP4", 0x0B, 1, true),
        ("EXFLT", 0x20, 1, true),
        ("EXFRQ", 0x21, 1, true),
        ("EXFAK", 0x26, 1, true),
        ("CUDP", 0x40, 2, false),
        ("CULTAD", 0x42, 1, false),
        ("CUFRV", 0x44, 1, false),
        ("CUSYN", 0x45, 1, false),
        ("CUFRP1", 0x46, 1, false),
        ("CUFRP2", 0x47, 1, false),
        ("CUFRP3", 0x48, 1, false),
        ("CUFRP4", 0x49, 1, false),
        ("CULTA1", 0x54, 1, false),
        ("CULTA2", 0x55, 1, false),
        ("CULTA3", 0x56, 1, false),
        ("CULTA4", 0x57, 1, false),
        ("CULTA5", 0x58, 1, false),
        ("EXFD1", 0x5C, 1, false),
        ("EXFD2", 0x5D, 1, false),
        ("EXFD3", 0x5E, 1, false),
        ("EXFD4", 0x5F, 1, false),
        ("data area", DATA_AREA, LARGEST - DATA_AREA, false),
    ];

    fn field_at(address: usize) -> Option<&'static str> {
        FIELDS
            .iter()
            .find(|(_, first, length, _)| (*first..first + length).contains(&address))
            .map(|(name, ..)| *name)
    }

    #[test]
    fn fields_do_not_overlap_and_keep_to_their_halves() {
        for pair in FIELDS.windows(2) {
            assert!(pair[0].1 + pair[0].2 <= pair[1].1, "{pair:?}");
        }
        for (name, first, length, in_device) in FIELDS {
            let in_half = (first + length <= UNIT_HALF, first >= UNIT_HALF);
            assert_eq!(in_half, (in_device, !in_device), "{name}");
        }
    }

    #[test]
    fn records_name_their_fields_in_order() {
        let names = |places: &[usize]| {
            places
                .iter()
                .map(|&p| field_at(p).unwrap())
                .collect::<Vec<_>>()
                .join(" ")
        };
        assert_eq!(
            names(&REQUEST),
            "CUFRV CUFRP1 CUFRP2 CUFRP3 CUFRP4 CULTAD CUDP CUDP"
        );
        assert_eq!(names(&SYNCHRONOUS.places), "DSSV DSSP DSSP2 DSSP3");
        assert_eq!(
            names(&ASYNCHRONOUS.places),
            "DAEV DAEP DAEP2 DAEP3 DAEP4 DALTAD"
        );
        assert_eq!(
            names(&EXPEDITED.places),
            "EXFRQ EXFLT EXFD1 EXFD2 EXFD3 EXFD4"
        );
        assert_eq!(names(&TOGGLES), "DPSSTAT DPASTAT EXFAK");
        assert_eq!(REQUEST[SECOND_PARAMETER], CUFRP2);
        assert_eq!(names(&CULTA), "CULTA1 CULTA2 CULTA3 CULTA4 CULTA5");
        assert_eq!(names(&EXFD), "EXFD1 EXFD2 EXFD3 EXFD4");
    }

    fn round_trip<const N: usize>(places: &Places<N>) {
        let mut memory = [0xEE; SMALLEST];
        let record: [u8; N] = std::array::from_fn(|i| i as u8 + 1);
        scatter(&mut memory, places, &record);
        assert_eq!(gather(&memory, places), record);
        // Nothing beside the places has changed.
        assert_eq!(memory.iter().filter(|&&b| b != 0xEE).count(), N);
        for (i, &place) in places.iter().enumerate() {
            assert_eq!(memory[place], i as u8 + 1);
        }
    }

    #[test]
    fn records_come_back_as_they_were_put() {
        round_trip(&REQUEST);
        round_trip(&SYNCHRONOUS.places);
        round_trip(&ASYNCHRONOUS.places);
        round_trip(&EXPEDITED.places);
    }

    #[test]
    fn no_toggle_lies_in_a_record() {
        let records = [
            &REQUEST[..],
            &SYNCHRONOUS.places,
            &ASYNCHRONOUS.places,
            &EXPEDITED.places,
        ]
        .concat();
        for (i, place) in records.iter().enumerate() {
            assert!(!is_toggle(*place) && *place != CUSYN);
            assert!(
                !records[..i].contains(place),
                "two records share {place:#x}"
            );
        }
    }
}
