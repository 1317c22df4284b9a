//! The decimals of integers, as the crate `itoa` gives them.

/// How many bytes the longest has, that of the least `i128`.
const LONGEST: usize = 40;

/// Room for a decimal.
pub struct Buffer {
    bytes: [u8; LONGEST],
}

/// An integer, as whether it is negative and its distance from 0.
pub trait Integer {
    fn parts(self) -> (bool, u128);
}

macro_rules! integers {
    ($($unsigned:ty, $signed:ty;)*) => {
        $(
            impl Integer for $unsigned {
                #[inline]
                fn parts(self) -> (bool, u128) {
                    (false, self as u128)
                }
            }

            impl Integer for $signed {
                #[inline]
                fn parts(self) -> (bool, u128) {
                    (self < 0, self.unsigned_abs() as u128)
                }
            }
        )*
    };
}

integers! {
    u8, i8;
    u16, i16;
    u32, i32;
    u64, i64;
    usize, isize;
    u128, i128;
}

impl Buffer {
    #[allow(clippy::new_without_default)]
    #[inline]
    pub fn new() -> Buffer {
        Buffer {
            bytes: [0; LONGEST],
        }
    }

    /// The decimal of a number.
    #[inline]
    pub fn format<I: Integer>(&mut self, number: I) -> &str {
        let (is_negative, size) = number.parts();
        let mut start = match u64::try_from(size) {
            Ok(size) => self.write_short(size),
            Err(_) => self.write_long(size),
        };
        if is_negative {
            start -= 1;
            self.bytes[start] = b'-';
        }
        std::str::from_utf8(&self.bytes[start..]).unwrap_or("")
    }

    /// Writes the digits at the end, and gives the place of the first.
    fn write_short(&mut self, size: u64) -> usize {
        let (mut rest, mut start) = (size, LONGEST);
        loop {
            start -= 1;
            self.bytes[start] = b'0' + (rest % 10) as u8;
            rest /= 10;
            if rest == 0 {
                return start;
            }
        }
    }

    fn write_long(&mut self, size: u128) -> usize {
        let (mut rest, mut start) = (size, LONGEST);
        while rest > 0 {
            start -= 1;
            self.bytes[start] = b'0' + (rest % 10) as u8;
            rest /= 10;
        }
        start
    }
}
