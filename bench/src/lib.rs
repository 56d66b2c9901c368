//! The proved closing and the proved calls of both kinds of clock sets, from the static library of the crate `kinds_export`. The exports ask
//! nothing of a caller, so every function here is safe.

/// 49 stored bounds, row by row (docs/clocksets.md). Every array is a zone.
pub use oracle::plain::Zone;

/// 49 codes, row by row: 0 below zero, 1 at most zero, any other nothing.
#[repr(C)]
#[derive(Clone, Copy, Debug, PartialEq, Eq)]
pub struct OrderCodes {
    pub codes: [u8; 49],
}

unsafe extern "C" {
    fn kinds_close(first: *mut i32, length: usize) -> u8;
    safe fn kinds_zone_all(zone: &mut Zone);
    safe fn kinds_zone_zero(zone: &mut Zone);
    safe fn kinds_zone_gap(zone: &mut Zone, first: u8, second: u8, strict: bool, constant: i32) -> u8;
    safe fn kinds_zone_reset(zone: &mut Zone, mask: u8) -> u8;
    safe fn kinds_zone_delay(zone: &mut Zone) -> u8;
    safe fn kinds_zone_within(low: &Zone, high: &Zone) -> bool;
    safe fn kinds_zone_is_empty(zone: &Zone) -> bool;
    safe fn kinds_order_all(set: &mut OrderCodes);
    safe fn kinds_order_zero(set: &mut OrderCodes);
    safe fn kinds_order_gap(set: &mut OrderCodes, first: u8, second: u8, strict: bool, constant: i32) -> u8;
    safe fn kinds_order_reset(set: &mut OrderCodes, mask: u8) -> u8;
    safe fn kinds_order_delay(set: &mut OrderCodes) -> u8;
    safe fn kinds_order_within(low: &OrderCodes, high: &OrderCodes) -> bool;
    safe fn kinds_order_is_empty(set: &OrderCodes) -> bool;
}

pub const CLOSED: u8 = 0;
pub const NO_CLOSED_FORM: u8 = 1;
pub const NOT_49: u8 = 2;
pub const TOO_LARGE: u8 = 3;

pub fn close(bounds: &mut [i32]) -> u8 {
    // SAFETY: a proved function over a lent slice; its element is a struct with one i32
    unsafe { kinds_close(bounds.as_mut_ptr(), bounds.len()) }
}

/// A set as the proved code stores it. Gap, reset and delay write the new set over the old one and answer 0, or leave it and answer the
/// number of the refusal.
pub trait Stored: Copy + PartialEq + std::fmt::Debug {
    fn all() -> Self;
    fn zero() -> Self;
    fn gap(&mut self, first: u8, second: u8, strict: bool, constant: i32) -> u8;
    fn reset(&mut self, mask: u8) -> u8;
    fn delay(&mut self) -> u8;
    fn within(&self, other: &Self) -> bool;
    fn is_empty(&self) -> bool;
}

impl Stored for Zone {
    fn all() -> Zone {
        let mut zone = Zone { bounds: [0; 49] };
        kinds_zone_all(&mut zone);
        zone
    }

    fn zero() -> Zone {
        let mut zone = Zone { bounds: [0; 49] };
        kinds_zone_zero(&mut zone);
        zone
    }

    fn gap(&mut self, first: u8, second: u8, strict: bool, constant: i32) -> u8 {
        kinds_zone_gap(self, first, second, strict, constant)
    }

    fn reset(&mut self, mask: u8) -> u8 {
        kinds_zone_reset(self, mask)
    }

    fn delay(&mut self) -> u8 {
        kinds_zone_delay(self)
    }

    fn within(&self, other: &Zone) -> bool {
        kinds_zone_within(self, other)
    }

    fn is_empty(&self) -> bool {
        kinds_zone_is_empty(self)
    }
}

impl Stored for OrderCodes {
    fn all() -> OrderCodes {
        let mut set = OrderCodes { codes: [0; 49] };
        kinds_order_all(&mut set);
        set
    }

    fn zero() -> OrderCodes {
        let mut set = OrderCodes { codes: [0; 49] };
        kinds_order_zero(&mut set);
        set
    }

    fn gap(&mut self, first: u8, second: u8, strict: bool, constant: i32) -> u8 {
        kinds_order_gap(self, first, second, strict, constant)
    }

    fn reset(&mut self, mask: u8) -> u8 {
        kinds_order_reset(self, mask)
    }

    fn delay(&mut self) -> u8 {
        kinds_order_delay(self)
    }

    fn within(&self, other: &OrderCodes) -> bool {
        kinds_order_within(self, other)
    }

    fn is_empty(&self) -> bool {
        kinds_order_is_empty(self)
    }
}
