//! What every stream can be asked, and what a stream that takes can be told.

use crate::clock::Moment;
use crate::refusal::{Record, Refusal};
use crate::text::{self, Document};

/// No stream shows more documents than these.
pub const MAX_DOCUMENTS: usize = 4_096;

/// A stream means three parts: a shown list, a settled moment and a total adjustment.
pub trait Stream {
    /// How many documents are shown.
    fn count(&self) -> usize;

    /// The document at a place of the shown list, counted from 0.
    fn document(&self, place: usize) -> Option<Document>;

    /// Before this moment nothing that comes in later can change what is on screen.
    fn settled_moment(&self) -> Moment;

    /// The sum of all delays between the entry and the reader.
    fn total_adjustment(&self) -> u32;

    /// The shown list, by rising number.
    fn shown(&self) -> Vec<Document> {
        (0..self.count()).filter_map(|place| self.document(place)).collect()
    }
}

/// A stream into which documents can be put.
pub trait TakingStream: Stream {
    /// The moment that the entry has come to.
    fn entry_moment(&self) -> Moment;

    fn take(&mut self, document: Document) -> Result<(), Refusal>;

    /// Says that the entry has come to a moment without a document.
    fn tick(&mut self, moment: Moment) -> Result<(), Refusal>;

    /// Reads a text and takes its document. The text is judged to its end before the stream is looked at.
    fn hand_in(&mut self, text: &[u8]) -> Result<(), Record> {
        let document = text::read(text)?;
        Ok(self.take(document)?)
    }
}

impl<S: Stream + ?Sized> Stream for Box<S> {
    fn count(&self) -> usize {
        (**self).count()
    }

    fn document(&self, place: usize) -> Option<Document> {
        (**self).document(place)
    }

    fn settled_moment(&self) -> Moment {
        (**self).settled_moment()
    }

    fn total_adjustment(&self) -> u32 {
        (**self).total_adjustment()
    }
}

impl<S: TakingStream + ?Sized> TakingStream for Box<S> {
    fn entry_moment(&self) -> Moment {
        (**self).entry_moment()
    }

    fn take(&mut self, document: Document) -> Result<(), Refusal> {
        (**self).take(document)
    }

    fn tick(&mut self, moment: Moment) -> Result<(), Refusal> {
        (**self).tick(moment)
    }
}
