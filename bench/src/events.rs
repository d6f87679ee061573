//! What stations report in a step (docs/INDEX.md, "The run program").

/// The ten event words; `got` with each status is a word of its own. Their order is that of the C interface's counts.
#[derive(Clone, Copy, Debug, PartialEq, Eq)]
#[repr(u8)]
pub enum Word {
    Collision,
    Late,
    Sent,
    GivenUp,
    LateEnd,
    GotOk,
    GotTooLong,
    GotAlignment,
    GotCheck,
    GotLength,
}

/// How many words there are.
pub const WORDS: usize = 10;

impl Word {
    /// As the run program prints it.
    pub fn text(self) -> &'static str {
        match self {
            Word::Collision => "collision",
            Word::Late => "late",
            Word::Sent => "sent",
            Word::GivenUp => "given-up",
            Word::LateEnd => "late-end",
            Word::GotOk => "got ok",
            Word::GotTooLong => "got too-long",
            Word::GotAlignment => "got alignment",
            Word::GotCheck => "got check",
            Word::GotLength => "got length",
        }
    }
}

/// A word with its number: the bit of a collision, the attempts of a frame, or the octets got.
#[derive(Clone, Copy, Debug, PartialEq, Eq)]
pub struct Event {
    pub word: Word,
    pub number: u32,
}

/// "A step answers for each station at most one transmit and one receive event."
#[derive(Clone, Copy, Debug, Default, PartialEq, Eq)]
pub struct Events {
    pub transmit: Option<Event>,
    pub receive: Option<Event>,
}

/// What a run answers.
#[derive(Clone, Debug, Default, PartialEq, Eq)]
pub struct Ran {
    /// Steps made.
    pub steps: u32,
    /// Events of each word, in the order of [`Word`].
    pub counts: [u32; WORDS],
    /// Where a late collision ended the run: its step, counted from 0, and the lowest station that had one.
    pub late: Option<(u32, u32)>,
}
