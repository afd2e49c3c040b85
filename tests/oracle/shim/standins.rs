//! Stand-ins for the crate's files that are not at hand: only what its reader.rs, parser.rs,
//! helpers.rs, sections.rs, message.rs and impls.rs name.

/// Numbers and records from octets. A read past the end is an error, and the place stays where it
/// was.
pub trait TryFromSlice: Sized {
    fn try_from_slice(octets: &[u8], at: &mut usize) -> Result<Self, &'static str>;
}

/// Numbers and records into octets.
pub trait WriteToBuffer {
    fn num_bytes_required(&self) -> usize;
    fn write_to_buffer(&self, buf: &mut [u8]) -> Result<usize, &'static str>;
}

macro_rules! unsigned_numbers {
    ($($number:ty),*) => ($(
        impl TryFromSlice for $number {
            fn try_from_slice(octets: &[u8], at: &mut usize) -> Result<Self, &'static str> {
                let end = *at + size_of::<$number>();
                let part = octets.get(*at..end).ok_or("slice length is too short")?;
                *at = end;
                Ok(<$number>::from_be_bytes(part.try_into().unwrap()))
            }
        }

        impl WriteToBuffer for $number {
            fn num_bytes_required(&self) -> usize {
                size_of::<$number>()
            }
            fn write_to_buffer(&self, buf: &mut [u8]) -> Result<usize, &'static str> {
                let part = buf
                    .get_mut(..size_of::<$number>())
                    .ok_or("destination buffer is too small")?;
                part.copy_from_slice(&self.to_be_bytes());
                Ok(part.len())
            }
        }
    )*);
}
unsigned_numbers!(u8, u16, u32, u64);

/// Sign and size: the top bit is the sign, the other bits are the size.
macro_rules! signed_numbers {
    ($($signed:ty, $unsigned:ty);*) => ($(
        impl TryFromSlice for $signed {
            fn try_from_slice(octets: &[u8], at: &mut usize) -> Result<Self, &'static str> {
                let raw = <$unsigned>::try_from_slice(octets, at)?;
                let size = (raw & (<$unsigned>::MAX >> 1)) as $signed;
                Ok(if raw.leading_zeros() == 0 { -size } else { size })
            }
        }
    )*);
}
signed_numbers!(i8, u8; i16, u16; i32, u32);

impl<const N: usize> TryFromSlice for [u8; N] {
    fn try_from_slice(octets: &[u8], at: &mut usize) -> Result<Self, &'static str> {
        let part = octets.get(*at..*at + N).ok_or("slice length is too short")?;
        *at += N;
        Ok(part.try_into().unwrap())
    }
}

impl<const N: usize> WriteToBuffer for [u8; N] {
    fn num_bytes_required(&self) -> usize {
        N
    }
    fn write_to_buffer(&self, buf: &mut [u8]) -> Result<usize, &'static str> {
        buf.get_mut(..N).ok_or("destination buffer is too small")?.copy_from_slice(self);
        Ok(N)
    }
}

/// Stands for the derive macros: a record's fields one after another.
macro_rules! readable {
    ($name:ident { $($field:ident : $type:ty),* $(,)? }) => {
        #[derive(Debug, Clone, PartialEq, Eq)]
        pub struct $name { $(pub $field: $type),* }

        impl crate::TryFromSlice for $name {
            fn try_from_slice(octets: &[u8], at: &mut usize) -> Result<Self, &'static str> {
                Ok(Self { $($field: crate::TryFromSlice::try_from_slice(octets, at)?),* })
            }
        }
    };
}
pub(crate) use readable;

macro_rules! writable {
    ($name:ident { $($field:ident),* $(,)? }) => {
        impl crate::WriteToBuffer for $name {
            fn num_bytes_required(&self) -> usize {
                0 $(+ self.$field.num_bytes_required())*
            }
            fn write_to_buffer(&self, buf: &mut [u8]) -> Result<usize, &'static str> {
                let mut at = 0;
                $(at += self.$field.write_to_buffer(&mut buf[at..])?;)*
                Ok(at)
            }
        }
    };
}

/// error.rs: its two kinds of error, as far as the files at hand give them.
pub mod error {
    #[derive(Debug, Clone, PartialEq, Eq)]
    pub enum BuildError {
        SectionSizeTooSmall(usize),
    }

    #[derive(Debug, Clone, PartialEq, Eq)]
    pub enum ParseError {
        ReadError(String),
        GRIBVersionMismatch(u8),
        UnknownSectionNumber(u8),
        EndSectionMismatch,
        UnexpectedEndOfData(usize),
        InvalidSectionOrder(usize),
        NoGridDefinition(usize),
        /// What becomes of a `BuildError`; the crate's own name for it is not known.
        SectionSizeTooSmall(usize),
    }

    impl From<std::io::Error> for ParseError {
        fn from(error: std::io::Error) -> Self {
            Self::ReadError(error.to_string())
        }
    }

    impl From<BuildError> for ParseError {
        fn from(BuildError::SectionSizeTooSmall(size): BuildError) -> Self {
            Self::SectionSizeTooSmall(size)
        }
    }
}

/// context.rs: what the streams hand out.
pub mod context {
    use crate::datatypes::*;

    #[derive(Debug, Default, Clone, PartialEq, Eq)]
    pub struct SectionInfo {
        pub num: u8,
        pub offset: usize,
        pub size: usize,
        pub body: Option<SectionBody>,
    }

    impl SectionInfo {
        pub(crate) fn new_8(offset: usize) -> Self {
            Self { num: 8, offset, size: crate::SECT8_ES_SIZE, body: None }
        }
    }

    #[derive(Debug, Clone, PartialEq, Eq)]
    pub enum SectionBody {
        Section0(Indicator),
        Section1(Identification),
        Section2(LocalUse),
        Section3(GridDefinition),
        Section4(ProdDefinition),
        Section5(ReprDefinition),
        Section6(BitMap),
        Section7,
    }

    /// Places of sections 0 to 8.
    pub type Places =
        (usize, usize, Option<usize>, usize, usize, usize, usize, usize, usize);

    pub struct Grib2SubmessageIndex {
        pub numbers: (usize, usize),
        pub places: Places,
    }

    impl Grib2SubmessageIndex {
        pub(crate) fn new(numbers: (usize, usize), places: Places) -> Self {
            Self { numbers, places }
        }
    }
}

/// codetables.rs: the list of supported templates, of which the crate asks only whether a number is
/// in it. `build.sh` writes its numbers.
pub mod codetables {
    use std::cell::Cell;

    pub struct Supported(pub &'static [u16]);

    thread_local!(static EVERY_NUMBER: Cell<bool> = const { Cell::new(false) });

    impl Supported {
        pub fn contains(&self, number: &u16) -> bool {
            EVERY_NUMBER.get() || self.0.contains(number)
        }
    }

    /// Runs `f` with every number in the list: what a template holds where shows of each.
    pub fn with_every_number(f: impl FnOnce()) {
        EVERY_NUMBER.set(true);
        f();
        EVERY_NUMBER.set(false);
    }
}

/// def/grib2.rs: the records that are read or written. Their fields follow the crate's file of that
/// name, which itself needs derive macros that are not at hand.
pub mod def {
    pub mod grib2 {
        use crate::WriteToBuffer;

        readable!(Section0 {
            identifier: [u8; 4],
            reserved: [u8; 2],
            discipline: u8,
            edition_num: u8,
            total_len: u64,
        });
        writable!(Section0 { identifier, reserved, discipline, edition_num, total_len });

        readable!(SectionHeader { len: u32, sect_num: u8 });
        writable!(SectionHeader { len, sect_num });

        /// Payloads as structs, which impls.rs names. Nobody makes one here: payloads are octets.
        macro_rules! never_made {
            ($($name:ident),*) => ($(
                pub enum $name {}
                impl WriteToBuffer for $name {
                    fn num_bytes_required(&self) -> usize {
                        match *self {}
                    }
                    fn write_to_buffer(&self, _: &mut [u8]) -> Result<usize, &'static str> {
                        match *self {}
                    }
                }
            )*);
        }
        never_made!(Section1Payload, Section3Payload, Section4Payload);

        pub mod template {
            pub mod param_set {
                crate::readable!(DateTime {
                    year: u16,
                    month: u8,
                    day: u8,
                    hour: u8,
                    minute: u8,
                    second: u8,
                });
            }
        }
    }
}
