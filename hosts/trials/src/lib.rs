//! What the trials share: repeatable chance, guarded memory, what heads and meters may say, and how
//! a program is held against a transcript.

pub mod chance;
pub mod head_words;
pub mod history;
pub mod memory;
pub mod program;
pub mod record;
pub mod session_words;
pub mod words;
