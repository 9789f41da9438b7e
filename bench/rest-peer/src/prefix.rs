//! Prefixes of both families.

use std::net::{IpAddr, Ipv4Addr, Ipv6Addr};

/// A prefix whose bits behind its length are zeros.
#[derive(Clone, Copy)]
pub struct Prefix {
    pub version: u8,
    pub length: u8,
    pub number: u128,
}

impl Prefix {
    pub fn parse(text: &str) -> Option<Prefix> {
        let (address, length) = text.split_once('/')?;
        let is_decimal = length.bytes().all(|byte| byte.is_ascii_digit());
        if !is_decimal || length.len() > 3 || (length.len() > 1 && length.starts_with('0')) {
            return None;
        }
        let length = length.parse().ok()?;
        let (version, number) = match address.parse().ok()? {
            IpAddr::V4(address) => (4, u128::from(u32::from(address))),
            IpAddr::V6(address) => (6, u128::from(address)),
        };
        if length > bits(version) {
            return None;
        }
        Some(Prefix { version, length, number: masked(version, length, number) })
    }

    /// The two texts differ for an IPv4-mapped address alone, which std writes with a dotted tail.
    pub fn text(&self) -> String {
        if self.version == 4 {
            return format!("{}/{}", Ipv4Addr::from(self.number as u32), self.length);
        }
        match self.number >> 32 {
            0xffff => format!("::ffff:{:x}:{:x}/{}", self.number as u32 >> 16, self.number as u16, self.length),
            _ => format!("{}/{}", Ipv6Addr::from(self.number), self.length),
        }
    }

    pub fn is_inside(&self, other: &Prefix) -> bool {
        self.version == other.version
            && self.length >= other.length
            && masked(self.version, other.length, self.number) == other.number
    }

    pub fn meets(&self, other: &Prefix) -> bool {
        self.is_inside(other) || other.is_inside(self)
    }
}

fn bits(version: u8) -> u8 {
    if version == 4 { 32 } else { 128 }
}

fn masked(version: u8, length: u8, number: u128) -> u128 {
    match bits(version) - length {
        128 => 0,
        behind => number >> behind << behind,
    }
}
