//! Stand-in for the crate's encoder.rs; `message` and `message/impls` are the crate's own files.
//! Nothing is packed here: a `GpvEncoder` carries ready payloads of sections 5, 6 and 7.
mod message;
pub use message::*;

pub struct GpvEncoder<'d> {
    pub payloads: [&'d [u8]; 3],
}

impl WriteGrib2PointValues for GpvEncoder<'_> {
    fn data_sections_len(&self) -> usize {
        self.payloads.iter().map(|payload| payload.len() + 5).sum()
    }

    /// Framed as the crate frames the payloads of sections 1 to 4.
    fn write_data_sections(&self, buf: &mut [u8]) -> Result<usize, &'static str> {
        let mut at = 0;
        for (number, payload) in (5..).zip(self.payloads) {
            let end = at + 5 + payload.len();
            let part = buf.get_mut(at..end).ok_or("destination buffer is too small")?;
            message::write_section_header(part.len() as u32, number, part)?;
            part[5..].copy_from_slice(payload);
            at = end;
        }
        Ok(at)
    }
}
