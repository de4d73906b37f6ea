//! Moving to a place in the contents.

use super::{CONTEXT, HEAD_BYTES, PIECE_BYTES, SealedReader};
use crate::records::{Error, HEADER_BYTES, Opener, Position, RECORD_BYTES, RECORD_HEAD_BYTES};
use std::io::{self, ErrorKind, Read, Seek, SeekFrom};

/// Returns the position of the record that has a place of the contents, or of the last record if none has it. The file has
/// `file_bytes` bytes and was sealed in whole pieces. Returns `None` if no such file has that length.
fn in_whole_pieces(file_bytes: u64, place: Option<u64>) -> Option<Position> {
    let records = file_bytes.checked_sub((HEAD_BYTES + RECORD_BYTES) as u64)?;
    let whole = (PIECE_BYTES + RECORD_BYTES) as u64;
    let rest = records % whole;
    if (1..=RECORD_BYTES as u64).contains(&rest) {
        return None;
    }
    let pieces = records.div_ceil(whole);
    let contents = records - pieces * RECORD_BYTES as u64;
    let number = match place {
        Some(place) if place < contents => place / PIECE_BYTES as u64,
        _ => pieces,
    };
    let before = contents.min(number * PIECE_BYTES as u64);
    Some(Position { number, before })
}

impl<R: Read + Seek> SealedReader<R> {
    /// Opens the record that has a place, and returns the place. The position is set by the caller, after all of this.
    fn locate(&mut self, to: SeekFrom) -> io::Result<u64> {
        let place = match to {
            SeekFrom::Start(place) => Some(place),
            SeekFrom::Current(by) => self.position.checked_add_signed(by),
            SeekFrom::End(by) => return self.locate_from_end(by),
        };
        let place = place.ok_or(ErrorKind::InvalidInput)?;
        if self.is_lost || place != self.position {
            self.open_for(place)?;
        }
        Ok(place)
    }

    /// Opens the last record and then that of a place from the end. If the place is before the start, goes back to the record
    /// that was open, for the next read to open it again.
    fn locate_from_end(&mut self, by: i64) -> io::Result<u64> {
        let (here, was_lost) = (self.here(), self.is_lost);
        self.open_record_of(None)?;
        self.is_lost = true;
        self.check_end()?;
        self.is_lost = false;
        let end = self.start + self.length as u64;
        if let Some(place) = end.checked_add_signed(by) {
            self.open_for(place)?;
            return Ok(place);
        }
        self.is_lost = true;
        if !was_lost {
            let opener = self.move_to(here)?.map_err(|fault| self.fail(fault))?;
            self.opener = Some(opener);
            self.is_lost = false;
        }
        Err(ErrorKind::InvalidInput.into())
    }

    /// Returns the position of the record that is open, or of the next one if that is none or empty.
    fn here(&self) -> Position {
        let Some(opener) = &self.opener else {
            return Position::default();
        };
        let is_open = self.length > 0 || opener.has_ended();
        Position { number: opener.position().number - u64::from(is_open), before: self.start }
    }

    /// Opens the record that has a place, or the last one, unless it is open.
    fn open_for(&mut self, place: u64) -> io::Result<()> {
        if self.is_lost || place < self.start || !self.is_open_at(Some(place)) {
            self.open_record_of(Some(place))?;
        }
        Ok(())
    }

    /// Opens the record that has a place of the contents, or the last one if none has it. It is tried first where it would be
    /// in whole pieces.
    fn open_record_of(&mut self, place: Option<u64>) -> io::Result<()> {
        self.begin()?;
        // Where the file begins in the inner reader, which is moved next.
        if self.base.is_none() {
            let base = self.inner.stream_position()?.checked_sub(self.taken);
            self.base = Some(base.ok_or(ErrorKind::InvalidInput)?);
        }
        self.is_lost = true;
        let file_bytes = self.inner.seek(SeekFrom::End(0))?;
        let file_bytes = file_bytes.saturating_sub(self.base.unwrap_or(0));
        let guess = in_whole_pieces(file_bytes, place);
        let is_open = match guess {
            Some(position) => self.open_at(position)?.is_ok() && self.is_open_at(place),
            None => false,
        };
        if !is_open {
            let position = self.find(place)?;
            self.open_at(position)?.map_err(|fault| self.fail(fault))?;
            // The heads were not verified, and the bytes may have changed since they were read.
            if !self.is_open_at(place) {
                return Err(self.fail(Error::Damaged(position.number)));
            }
        }
        self.is_lost = false;
        Ok(())
    }

    /// Returns whether the record that was opened has the place, or is the last one.
    fn is_open_at(&self, place: Option<u64>) -> bool {
        let end = self.start + self.length as u64;
        self.opener.as_ref().is_some_and(Opener::has_ended) || place.is_some_and(|place| place < end)
    }

    /// Returns the position of the record that has a place, or of the last one, by the lengths of those before it. Only lengths
    /// of 0 are verified, since zeros look like empty records, and a hole of zeros takes no disk.
    fn find(&mut self, place: Option<u64>) -> io::Result<Position> {
        let mut position = Position::default();
        loop {
            let head = self.head_at(position)?;
            let (is_last, length) = head.map_err(|fault| self.fail(fault))?;
            let end = position.before + length;
            if is_last || place.is_some_and(|place| place < end) {
                return Ok(position);
            }
            if length == 0 {
                self.open_at(position)?.map_err(|fault| self.fail(fault))?;
            }
            position.number += 1;
            position.before = end;
        }
    }

    /// Returns whether the record at a position is the last one, and how many bytes its message has. Neither is verified.
    fn head_at(&mut self, position: Position) -> io::Result<Result<(bool, u64), Error>> {
        let mut opener = match self.move_to(position)? {
            Ok(opener) => opener,
            Err(fault) => return Ok(Err(fault)),
        };
        self.fill(RECORD_HEAD_BYTES)?;
        let bytes = &mut self.record.0[..self.filled];
        let Some(head) = bytes.first_chunk() else {
            return Ok(opener.open_next_in_place(bytes).map(|_| (true, 0)));
        };
        let length = opener.record_len(head);
        Ok(length.map(|length| (head[0] == 1, (length - RECORD_BYTES) as u64)))
    }

    /// Opens the record at a position.
    fn open_at(&mut self, position: Position) -> io::Result<Result<(), Error>> {
        let moved = self.move_to(position)?;
        match moved.map(|opener| self.opener = Some(opener)) {
            Ok(()) => self.open_next(),
            fault => Ok(fault),
        }
    }

    /// Moves the inner reader to the record at a position, and returns an opener of that record.
    fn move_to(&mut self, position: Position) -> io::Result<Result<Opener<'static>, Error>> {
        let opener = match Opener::begin_at(&self.key.0, &self.prefix, CONTEXT, position) {
            Ok(opener) => opener,
            Err(fault) => return Ok(Err(fault)),
        };
        let offset = (HEAD_BYTES - HEADER_BYTES) as u64 + position.offset();
        let place = self.base.unwrap_or(0).checked_add(offset);
        self.inner.seek(SeekFrom::Start(place.ok_or(ErrorKind::InvalidInput)?))?;
        self.start = position.before;
        self.length = 0;
        self.filled = 0;
        self.is_at_end = false;
        Ok(Ok(opener))
    }
}

impl<R: Read + Seek> Seek for SealedReader<R> {
    /// Moves to a place of the contents, and verifies the record that has it, unless it is the current place.
    /// [`SeekFrom::End`] verifies the last record too, and that nothing follows it.
    ///
    /// Unless the record is where [`SealedWriter`](super::SealedWriter) would have put it, the length of each earlier record is
    /// read. Only lengths of 0 are verified.
    fn seek(&mut self, to: SeekFrom) -> io::Result<u64> {
        self.check()?;
        self.position = self.locate(to)?;
        Ok(self.position)
    }

    /// Returns the place of the next byte. Nothing is moved.
    fn stream_position(&mut self) -> io::Result<u64> {
        Ok(self.position)
    }
}
