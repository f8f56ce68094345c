//! Reading the fields of a line of text, and writing them.

const MALFORMED: &[u8] = b"?,13\n";
const DIGITS: &[u8; 16] = b"0123456789ABCDEF";

/// The value of each upper-case hexadecimal digit, and `NO_DIGIT` for others.
const VALUES: [u8; 256] = {
    let mut values = [NO_DIGIT; 256];
    let mut i = 0;
    while i < 16 {
        values[DIGITS[i] as usize] = i as u8;
        i += 1;
    }
    values
};
const NO_DIGIT: u8 = 0xFF;

/// The byte of two digits.
fn byte_of(pair: &[u8; 2]) -> Option<u8> {
    let [high, low] = pair.map(|digit| VALUES[usize::from(digit)]);
    (high != NO_DIGIT && low != NO_DIGIT).then_some(high << 4 | low)
}

/// The fields of a line still to be read.
pub struct Fields<'a>(pub &'a [u8]);

impl<'a> Fields<'a> {
    /// Reads all of a text, and nothing may be left.
    pub fn whole<T>(text: &'a [u8], read: impl FnOnce(&mut Fields<'a>) -> Option<T>) -> Option<T> {
        let mut fields = Fields(text);
        let value = read(&mut fields)?;
        fields.0.is_empty().then_some(value)
    }

    /// Bytes of two digits each.
    pub fn bytes<const N: usize>(&mut self) -> Option<[u8; N]> {
        let (digits, rest) = self.0.split_at_checked(2 * N)?;
        let mut bytes = [0; N];
        for (byte, pair) in bytes.iter_mut().zip(digits.as_chunks().0) {
            *byte = byte_of(pair)?;
        }
        self.0 = rest;
        Some(bytes)
    }

    /// All that is left as bytes of two digits each, at most so many.
    pub fn data(&mut self, most: usize, data: &mut Vec<u8>) -> Option<()> {
        let (pairs, odd) = self.0.as_chunks();
        if pairs.len() > most || !odd.is_empty() {
            return None;
        }
        data.clear();
        for pair in pairs {
            data.push(byte_of(pair)?);
        }
        self.0 = &[];
        Some(())
    }

    pub fn byte(&mut self) -> Option<u8> {
        self.bytes().map(|[byte]| byte)
    }

    pub fn address(&mut self) -> Option<u16> {
        self.bytes().map(u16::from_be_bytes)
    }

    /// A decimal number up to `most`, without leading zeros.
    pub fn number(&mut self, most: u32) -> Option<u32> {
        let length = self.0.iter().take_while(|b| b.is_ascii_digit()).count();
        let (digits, rest) = self.0.split_at(length);
        if !(1..=10).contains(&length) || (digits[0] == b'0' && length > 1) {
            return None;
        }
        let value = digits
            .iter()
            .fold(0, |value, b| 10 * value + u64::from(b - b'0'));
        self.0 = rest;
        u32::try_from(value).ok().filter(|&value| value <= most)
    }

    pub fn truth(&mut self) -> Option<bool> {
        self.number(1).map(|value| value == 1)
    }

    pub fn comma(&mut self) -> Option<()> {
        self.0 = self.0.strip_prefix(b",")?;
        Some(())
    }
}

/// The answer to whatever is malformed.
pub fn refuse(out: &mut Vec<u8>) {
    out.extend_from_slice(MALFORMED);
}

/// Writes, and says that nothing was malformed.
pub fn say(out: &mut Vec<u8>, text: &[u8]) -> Option<()> {
    out.extend_from_slice(text);
    Some(())
}

pub fn put_bytes(out: &mut Vec<u8>, bytes: &[u8]) {
    for &byte in bytes {
        out.extend_from_slice(&[
            DIGITS[usize::from(byte >> 4)],
            DIGITS[usize::from(byte & 15)],
        ]);
    }
}

pub fn put_number(out: &mut Vec<u8>, mut number: u32) {
    let mut digits = [0; 10];
    let mut first = digits.len();
    loop {
        first -= 1;
        digits[first] = b'0' + (number % 10) as u8;
        number /= 10;
        if number == 0 {
            break;
        }
    }
    out.extend_from_slice(&digits[first..]);
}
