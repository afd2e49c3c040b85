//! Stand-in for the crate's module of this name; `sections` is the crate's own file.
mod sections;
pub use sections::*;

/// A unit octet and four octets.
#[derive(Debug, Clone, PartialEq, Eq)]
pub struct ForecastTime {
    pub unit: u8,
    pub time: u32,
}

impl ForecastTime {
    pub fn from_numbers(unit: u8, time: u32) -> Self {
        Self { unit, time }
    }
}

// As in the Manual: type (1), scale factor (1, signed), scaled value (4, signed).
crate::readable!(FixedSurface { surface_type: u8, scale_factor: i8, scaled_value: i32 });
