//! The crate's own walk, a number of times over a file in memory: crate FILE TIMES. The crate's
//! files and the stand-ins for those that are not at hand are those of tests/oracle, which says
//! what is whose.
mod codetables;
mod datatypes;
mod helpers;
mod parser;
mod reader;
mod standins;

pub use datatypes::*;
pub(crate) use parser::*;
pub(crate) use reader::*;
pub use standins::context::*;
pub use standins::error::{self, *};
pub(crate) use standins::readable;
pub use standins::{TryFromSlice, WriteToBuffer, def};

use std::hint::black_box;
use std::io::Cursor;

/// Messages and submessages, or nothing where the crate refuses the file.
fn walk(file: &[u8]) -> Option<(usize, usize)> {
    let sections = Grib2SectionStream::new(SeekableGrib2Reader::new(Cursor::new(file)));
    let (mut messages, mut submessages) = (0, 0);
    for line in Grib2SubmessageStream::new(sections) {
        let (message, _, sections) = line.ok()?;
        messages = message + usize::from(sections.8.offset != 0);
        submessages += 1;
    }
    Some((messages, submessages))
}

fn main() {
    let mut words = std::env::args().skip(1);
    let file = std::fs::read(words.next().expect("FILE")).expect("a file that can be read");
    let times: usize = words.next().and_then(|word| word.parse().ok()).expect("TIMES");
    let mut told = None;
    for _ in 0..times {
        told = black_box(walk(black_box(&file)));
    }
    if let Some((messages, submessages)) = told {
        println!("submessages {submessages}\nmessages {messages}\noutcome 0");
    }
}
