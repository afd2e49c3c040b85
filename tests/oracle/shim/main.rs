//! The crate's own walk, fields and framing of a message, asked by requests on standard input: a
//! kind octet, a length (4, big-endian) and so many octets. README.md says what is answered.
mod codetables;
mod datatypes;
mod encoder;
mod helpers;
mod parser;
mod plan;
mod reader;
mod standins;
mod watch;

pub use datatypes::*;
pub(crate) use parser::*;
pub(crate) use reader::*;
pub(crate) use standins::codetables::with_every_number;
pub use standins::context::*;
pub use standins::error::{self, *};
pub(crate) use standins::readable;
pub use standins::{TryFromSlice, WriteToBuffer, def};

use encoder::WriteGrib2Message as _;
use std::fmt::{Display, Write as _};
use std::io::{self, BufRead as _, Cursor, Read as _, Write as _};
use std::panic::{AssertUnwindSafe, catch_unwind};
use watch::{Began, Watched};

type Sections<'a> = Grib2SectionStream<SeekableGrib2Reader<Watched<'a>>>;

fn sections(file: &[u8], began: Began) -> Sections<'_> {
    Grib2SectionStream::new(SeekableGrib2Reader::new(Watched::new(file, began)))
}

// --- How it ended -------------------------------------------------------------------------------

/// What `f` answers, or in words how it was stopped: the error's name and number, or a panic.
fn caught<T>(f: impl FnOnce() -> Result<T, ParseError>) -> Result<T, String> {
    match catch_unwind(AssertUnwindSafe(f)) {
        Ok(Ok(answer)) => Ok(answer),
        Ok(Err(error)) => Err(error_words(&error)),
        Err(thrown) => Err(panic_words(thrown)),
    }
}

fn error_words(error: &ParseError) -> String {
    match error {
        ParseError::ReadError(_) => "ReadError 0".into(),
        ParseError::GRIBVersionMismatch(edition) => format!("GRIBVersionMismatch {edition}"),
        ParseError::UnknownSectionNumber(number) => format!("UnknownSectionNumber {number}"),
        ParseError::EndSectionMismatch => "EndSectionMismatch 0".into(),
        ParseError::UnexpectedEndOfData(place) => format!("UnexpectedEndOfData {place}"),
        ParseError::InvalidSectionOrder(place) => format!("InvalidSectionOrder {place}"),
        ParseError::NoGridDefinition(place) => format!("NoGridDefinition {place}"),
        ParseError::SectionSizeTooSmall(size) => format!("SectionSizeTooSmall {size}"),
    }
}

fn panic_words(thrown: Box<dyn std::any::Any + Send>) -> String {
    let formatted = thrown.downcast_ref::<String>().map(String::as_str);
    let text = formatted.or_else(|| thrown.downcast_ref::<&str>().copied()).unwrap_or("");
    if text.contains("with overflow") { "Overflow 0" } else { "Panic 0" }.into()
}

fn end_line(out: &mut String, head: &str, end: Result<(), String>, began: Began) {
    let words = end.err().unwrap_or("Over 0".into());
    writeln!(out, "{head} {words} {}", began.get()).unwrap();
}

// --- Walks --------------------------------------------------------------------------------------

fn walk(out: &mut String, file: &[u8]) {
    sections_read(out, file);
    submessage_offsets(out, file);
    submessage_places(out, file);
}

/// Every section that can be read. This stream knows no order, so it may go on where the walk is
/// over.
fn sections_read(out: &mut String, file: &[u8]) {
    let _ = caught(|| {
        for section in sections(file, Began::default()) {
            let section = section?;
            writeln!(out, "read {} {} {}", section.num, section.offset, section.size).unwrap();
        }
        Ok(())
    });
}

/// The public stream, whose lines have offsets.
fn submessage_offsets(out: &mut String, file: &[u8]) {
    let began = Began::default();
    let end = caught(|| {
        for line in Grib2SubmessageStream::new(sections(file, began.clone())) {
            let (message, submessage, s) = line?;
            let two = s.2.map(|section| section.offset);
            let places = (s.0.offset, s.1.offset, two, s.3.offset, s.4.offset, s.5.offset,
                          s.6.offset, s.7.offset, s.8.offset);
            nine_numbers(out, "offsets", (message, submessage), places);
        }
        Ok(())
    });
    end_line(out, "offsets-end", end, began);
}

/// The crate's own stream of places, which also keeps each section that passed the order.
fn submessage_places(out: &mut String, file: &[u8]) {
    let began = Began::default();
    let mut passed = Vec::new();
    let end = caught(|| {
        let lines = Grib2SubmessageIndexStream::new(sections(file, began.clone()));
        for line in lines.with_cacher(&mut passed) {
            let line = line?;
            nine_numbers(out, "line", line.numbers, line.places);
        }
        Ok(())
    });
    writeln!(out, "passed {}", passed.len()).unwrap();
    for body in passed.iter().filter_map(|section| section.body.as_ref()) {
        fields_line(out, body);
    }
    end_line(out, "end", end, began);
}

fn nine_numbers(out: &mut String, head: &str, (message, submessage): (usize, usize), p: Places) {
    let two = p.2.map_or("-".into(), |place| place.to_string());
    writeln!(
        out,
        "{head} {message}.{submessage} {} {} {two} {} {} {} {} {} {}",
        p.0, p.1, p.3, p.4, p.5, p.6, p.7, p.8
    )
    .unwrap();
}

// --- Fields -------------------------------------------------------------------------------------

fn word<T: Display>(field: Option<T>) -> String {
    field.map_or("none".into(), |value| value.to_string())
}

/// As docs/REPLAY.md prints the fields of a section; nothing for a section without fields.
fn fields_line(out: &mut String, body: &SectionBody) {
    let line = match body {
        SectionBody::Section0(s) => format!("0 {} {}", s.discipline, s.total_length),
        SectionBody::Section1(s) => format!("1 {}", identification_words(s)),
        SectionBody::Section3(s) => format!("3 {} {}", s.num_points(), s.grid_tmpl_num()),
        SectionBody::Section4(s) => format!("4 {}", product_words(s)),
        SectionBody::Section5(s) => format!("5 {} {}", s.num_points(), s.repr_tmpl_num()),
        SectionBody::Section6(s) => format!("6 {}", s.bitmap_indicator),
        SectionBody::Section2(_) | SectionBody::Section7 => return,
    };
    writeln!(out, "fields {line}").unwrap();
}

fn identification_words(s: &Identification) -> String {
    let t = s.ref_time_unchecked();
    format!(
        "{} {} {} {} {} {} {} {} {} {} {} {} {}",
        s.centre_id(), s.subcentre_id(), s.master_table_version(), s.local_table_version(),
        s.ref_time_significance(), t.year, t.month, t.day, t.hour, t.minute, t.second,
        s.prod_status(), s.data_type()
    )
}

fn product_words(s: &ProdDefinition) -> String {
    format!(
        "{} {} {} {} {} {} {}",
        s.num_coordinates(), s.prod_tmpl_num(), word(s.parameter_category()),
        word(s.parameter_number()), word(s.generating_process()),
        s.forecast_time().map_or("none none".into(), |t| format!("{} {}", t.unit, t.time)),
        s.fixed_surfaces().map_or("none none none none none none".into(), |(first, second)| {
            format!("{} {}", surface_words(first), surface_words(second))
        })
    )
}

fn surface_words(s: FixedSurface) -> String {
    format!("{} {} {}", s.surface_type, s.scale_factor, s.scaled_value)
}

/// A section number and its payload, or for number 0 the octets of section 0.
fn fields(out: &mut String, request: &[u8]) {
    let (number, payload) = (request[0], &request[1..]);
    match caught(|| body_of(number, payload)) {
        Ok(body) => fields_line(out, &body),
        Err(words) => writeln!(out, "{words}").unwrap(),
    }
}

fn body_of(number: u8, payload: &[u8]) -> Result<SectionBody, ParseError> {
    let boxed = Box::from(payload);
    Ok(match number {
        0 => SectionBody::Section0(Indicator::from_slice(payload)?),
        1 => SectionBody::Section1(Identification::from_payload(boxed)?),
        2 => SectionBody::Section2(LocalUse::from_payload(boxed)),
        3 => SectionBody::Section3(GridDefinition::from_payload(boxed)?),
        4 => SectionBody::Section4(ProdDefinition::from_payload(boxed)?),
        5 => SectionBody::Section5(ReprDefinition::from_payload(boxed)?),
        6 => SeekableGrib2Reader::new(Cursor::new(payload)).read_sect6_payload(payload.len())?,
        _ => return Err(ParseError::UnknownSectionNumber(number)),
    })
}

fn signed(out: &mut String, octets: &[u8]) {
    match caught(|| Ok(helpers::grib_int_from_bytes(octets))) {
        Ok(value) => writeln!(out, "signed {value}").unwrap(),
        Err(words) => writeln!(out, "{words}").unwrap(),
    }
}

// --- The writer ---------------------------------------------------------------------------------

/// Every octet of a destination before the call, as in docs/REPLAY.md.
const BEFORE: u8 = 165;

/// Discipline (1), reserved (2), length of the destination (4), then of each section its number
/// (1), the length of its payload (4) and the payload.
fn write(out: &mut String, request: &[u8]) {
    let room = number_at(request, 3);
    let plan = planned(&request[7..]);
    let Some(message) = plan::nested(request[0], [request[1], request[2]], &plan) else {
        writeln!(out, "NoShape").unwrap();
        return;
    };
    let mut dest = vec![BEFORE; room];
    let written = catch_unwind(AssertUnwindSafe(|| message.write(&mut dest)));
    match written {
        Ok(Ok(size)) => writeln!(out, "written {size} of {}", message.num_octets()).unwrap(),
        Ok(Err(_)) => writeln!(out, "TooSmall for {}", message.num_octets()).unwrap(),
        Err(thrown) => writeln!(out, "{}", panic_words(thrown)).unwrap(),
    }
    writeln!(out, "dest {}", hex(&dest)).unwrap();
    let mut again = vec![BEFORE; room];
    if by_reference(&message, &mut again).is_ok() {
        writeln!(out, "by-reference {}", hex(&again)).unwrap();
    }
}

/// As a function writes that is handed any message.
fn by_reference<M: encoder::WriteGrib2Message>(
    message: M,
    dest: &mut [u8],
) -> Result<usize, &'static str> {
    message.write(dest)
}

fn number_at(octets: &[u8], at: usize) -> usize {
    u32::from_be_bytes(octets[at..at + 4].try_into().unwrap()) as usize
}

fn planned(mut octets: &[u8]) -> Vec<plan::Planned<'_>> {
    let mut plan = Vec::new();
    while !octets.is_empty() {
        let end = 5 + number_at(octets, 1);
        plan.push((octets[0], &octets[5..end]));
        octets = &octets[end..];
    }
    plan
}

fn hex(octets: &[u8]) -> String {
    if octets.is_empty() {
        return "-".into();
    }
    octets.iter().map(|octet| format!("{octet:02x}")).collect()
}

// --- Requests -----------------------------------------------------------------------------------

fn answer(out: &mut String, kind: u8, octets: &[u8]) {
    match kind {
        b'W' => walk(out, octets),
        b'F' => fields(out, octets),
        b'O' => with_every_number(|| fields(out, octets)),
        b'S' => signed(out, octets),
        b'M' => write(out, octets),
        _ => panic!("a request of another kind"),
    }
    out.push_str(".\n");
}

fn main() -> io::Result<()> {
    // A panic of the crate is an answer; nothing of it goes to standard error.
    std::panic::set_hook(Box::new(|_| {}));
    let mut input = io::stdin().lock();
    let mut output = io::BufWriter::new(io::stdout().lock());
    while !input.fill_buf()?.is_empty() {
        let mut head = [0; 5];
        input.read_exact(&mut head)?;
        let mut octets = vec![0; number_at(&head, 1)];
        input.read_exact(&mut octets)?;
        let mut text = String::new();
        answer(&mut text, head[0], &octets);
        output.write_all(text.as_bytes())?;
    }
    output.flush()
}
