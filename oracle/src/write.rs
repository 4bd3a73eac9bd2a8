//! Little-endian records, one after another, into a file.

use std::fs::File;
use std::io::{BufWriter, Result, Write};
use std::path::Path;

/// The bytes of one record.
#[derive(Default)]
pub struct Record(Vec<u8>);

impl Record {
    pub fn u8(mut self, value: u8) -> Self {
        self.0.push(value);
        self
    }

    pub fn u16(self, value: u16) -> Self {
        self.bytes(&value.to_le_bytes())
    }

    pub fn u32(self, value: u32) -> Self {
        self.bytes(&value.to_le_bytes())
    }

    pub fn u64(self, value: u64) -> Self {
        self.bytes(&value.to_le_bytes())
    }

    pub fn bytes(mut self, bytes: &[u8]) -> Self {
        self.0.extend_from_slice(bytes);
        self
    }
}

/// A file of records, one for each call.
pub struct Out {
    file: BufWriter<File>,
    calls: u64,
    bytes: u64,
}

impl Out {
    pub fn create(path: &Path) -> Result<Self> {
        Ok(Self {
            file: BufWriter::new(File::create(path)?),
            calls: 0,
            bytes: 0,
        })
    }

    pub fn calls(&self) -> u64 {
        self.calls
    }

    pub fn put(&mut self, record: Record) {
        self.calls += 1;
        self.bytes += record.0.len() as u64;
        self.file.write_all(&record.0).expect("the file takes it");
    }

    /// Calls and bytes written.
    pub fn finish(mut self) -> Result<(u64, u64)> {
        self.file.flush()?;
        Ok((self.calls, self.bytes))
    }
}
