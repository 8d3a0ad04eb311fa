//! The limits of documents 01 and 02, each named once.

/// A pattern has at most this many steps.
pub const STEPS: usize = 255;

/// An inserted tree has at most this many nodes.
pub const INSERTED_NODES: usize = 1_024;

/// A tree that is proposed as a witness has at most this many nodes.
pub const PROPOSED_NODES: usize = 1_024;

/// A tree that is written as tags, or read from them, has at most this many nodes.
pub const TAGGED_NODES: usize = 1_024;

/// A batch has at most this many frames.
pub const FRAMES: usize = 128;

/// A batch has at most this many words.
pub const BATCH_WORDS: usize = 16_384;

/// A document has at most this many used nodes.
pub const DOCUMENT_NODES: usize = 4_096;

/// A line has at most this many digits.
pub const LINE_DIGITS: usize = 10_244;

/// The next identity to give is at most this.
pub const IDENTITIES: usize = 4_294_967_295;
