//! An in-memory cursor that notes where the section in hand begins. The crate tells no offset of a
//! section that it cannot read, but its cursor stood there.
use std::cell::Cell;
use std::io::{self, Cursor, Read, Seek, SeekFrom};
use std::rc::Rc;

/// The offset of the section that was begun last.
#[derive(Clone, Default)]
pub struct Began(Rc<Cell<u64>>);

impl Began {
    pub fn get(&self) -> u64 {
        self.0.get()
    }
}

pub struct Watched<'a> {
    file: Cursor<&'a [u8]>,
    began: Began,
    searching: bool,
}

impl<'a> Watched<'a> {
    pub fn new(file: &'a [u8], began: Began) -> Self {
        Self { file: Cursor::new(file), began, searching: false }
    }
}

/// The crate reads a header or a section 8 by one `read` of 5 or 4 octets, a payload by
/// `read_exact`, and it searches for a section 0 by a `read` of a large block.
impl Read for Watched<'_> {
    fn read(&mut self, buf: &mut [u8]) -> io::Result<usize> {
        self.searching = buf.len() > 5;
        if !self.searching {
            self.began.0.set(self.file.position());
        }
        self.file.read(buf)
    }

    fn read_exact(&mut self, buf: &mut [u8]) -> io::Result<()> {
        self.file.read_exact(buf)
    }
}

/// After the block in which it found a section 0 the crate seeks to that section's end.
impl Seek for Watched<'_> {
    fn seek(&mut self, to: SeekFrom) -> io::Result<u64> {
        let now = self.file.seek(to)?;
        if self.searching {
            self.began.0.set(now.saturating_sub(16));
        }
        Ok(now)
    }
}
