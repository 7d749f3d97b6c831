//! The few names of other crates that the source leans on (anyhow, crc, bitfield), so that it builds with none of them.

use std::fmt;

/// anyhow's: an error that is a message.
#[derive(Debug)]
pub struct Error(pub String);

impl fmt::Display for Error {
    fn fmt(&self, f: &mut fmt::Formatter) -> fmt::Result {
        f.write_str(&self.0)
    }
}

pub trait Context<T> {
    fn context(self, message: &str) -> Result<T, Error>;
}

impl<T> Context<T> for Option<T> {
    fn context(self, message: &str) -> Result<T, Error> {
        self.ok_or_else(|| Error(message.to_string()))
    }
}

#[macro_export]
macro_rules! bail {
    ($($words:tt)*) => { return Err($crate::crates::Error(format!($($words)*))) };
}

/// crc's: a CRC by a table of 256 entries, a byte a step.
pub struct Crc<T> {
    table: [T; 256],
}

/// The generator X^16 + X^15 + X^2 + 1, lowest power highest.
pub const CRC_16_USB: u16 = 0xA001;

impl Crc<u16> {
    pub const fn new(generator: &u16) -> Crc<u16> {
        let mut table = [0u16; 256];
        let mut i = 0;
        while i < 256 {
            let mut x = i as u16;
            let mut bit = 0;
            while bit < 8 {
                x = if x & 1 == 1 { x >> 1 ^ *generator } else { x >> 1 };
                bit += 1;
            }
            table[i] = x;
            i += 1;
        }
        Crc { table }
    }

    pub fn checksum(&self, bytes: &[u8]) -> u16 {
        let mut state = 0xFFFFu16;
        for byte in bytes {
            state = state >> 8 ^ self.table[(state as u8 ^ byte) as usize];
        }
        !state
    }
}

/// bitfield's, as far as the source uses it: a number, and parts of it by the places of their high and low bits.
#[macro_export]
macro_rules! bitfield {
    ($(#[$meta:meta])* pub struct $name:ident($type:ty); $($fields:tt)*) => {
        #[derive(Copy, Clone, Debug, Default)]
        pub struct $name(pub $type);
        impl $name {
            $crate::bitfield! { @field $type; $($fields)* }
        }
    };
    (@field $type:ty;) => {};
    (@field $type:ty; pub bool, $get:ident, _: $bit:literal; $($rest:tt)*) => {
        pub fn $get(&self) -> bool {
            self.0 >> $bit & 1 == 1
        }
        $crate::bitfield! { @field $type; $($rest)* }
    };
    (@field $type:ty; pub $part:ty, from into $wrap:ty, $get:ident, $set:ident: $high:literal, $low:literal; $($rest:tt)*) => {
        pub fn $get(&self) -> $wrap {
            <$wrap>::from($crate::crates::part(self.0 as u64, $high, $low) as $part)
        }
        pub fn $set(&mut self, value: $wrap) {
            self.0 = $crate::crates::with_part(self.0 as u64, $high, $low, <$part>::from(value) as u64) as $type;
        }
        $crate::bitfield! { @field $type; $($rest)* }
    };
    (@field $type:ty; pub $part:ty, into $wrap:ty, $get:ident, _: $high:literal, $low:literal; $($rest:tt)*) => {
        pub fn $get(&self) -> $wrap {
            <$wrap>::from($crate::crates::part(self.0 as u64, $high, $low) as $part)
        }
        $crate::bitfield! { @field $type; $($rest)* }
    };
    (@field $type:ty; pub $part:ty, $get:ident, _: $high:literal, $low:literal; $($rest:tt)*) => {
        pub fn $get(&self) -> $part {
            $crate::crates::part(self.0 as u64, $high, $low) as $part
        }
        $crate::bitfield! { @field $type; $($rest)* }
    };
    (@field $type:ty; pub $part:ty, $get:ident, $set:ident: $high:literal, $low:literal; $($rest:tt)*) => {
        pub fn $get(&self) -> $part {
            $crate::crates::part(self.0 as u64, $high, $low) as $part
        }
        pub fn $set(&mut self, value: $part) {
            self.0 = $crate::crates::with_part(self.0 as u64, $high, $low, value as u64) as $type;
        }
        $crate::bitfield! { @field $type; $($rest)* }
    };
}

/// The bits of a number from low to high.
pub fn part(number: u64, high: u32, low: u32) -> u64 {
    number << (63 - high) >> (63 - high + low)
}

/// The number with these bits set to a value; bits of the value that do not fit are dropped.
pub fn with_part(number: u64, high: u32, low: u32, value: u64) -> u64 {
    let mask = u64::MAX << (63 - high) >> (63 - high + low) << low;
    number & !mask | value << low & mask
}
