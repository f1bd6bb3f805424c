//! The verbs: their names, how many parameters they take and how large these may be.

#[derive(Clone, Copy, Debug, PartialEq, Eq)]
pub(crate) enum Verb {
    Build,
    Check,
    List,
    Load,
    Run,
    Step,
    Preview,
    Power,
    Raise,
    Trace,
    Table,
    Cut,
    Play,
    Decode,
    Fibonacci,
    Places,
    Number,
    Hofstadter,
    Inverse,
    Height,
    Prime,
    Mulmod,
    Powmod,
    Help,
    Version,
    Script,
    // Only a script has these.
    Tape,
    Append,
    Change,
    Drop,
    Behind,
    Room,
}

pub(crate) struct Entry {
    pub name: &'static str,
    pub verb: Verb,
    pub least: usize,
    pub most: usize,
    /// The largest number that a parameter may be.
    pub largest: u64,
}

const BYTE: u64 = u8::MAX as u64;
const WORD: u64 = u32::MAX as u64;
/// A row of tapes has no more words; a room neither.
pub(crate) const MOST_ROW_WORDS: usize = 4096;
/// Lists of requests, of places and of a tape's words have no more numbers.
const MANY: usize = 64;
/// No verb takes more parameters. A row of bases may have two fewer, so that the service tells of one that
/// is too long.
const MOST: usize = 66;

const fn takes(name: &'static str, verb: Verb, least: usize, most: usize, largest: u64) -> Entry {
    Entry {
        name,
        verb,
        least,
        most,
        largest,
    }
}

const fn exactly(name: &'static str, verb: Verb, count: usize) -> Entry {
    takes(name, verb, count, count, WORD)
}

/// What a command line may begin with.
pub(crate) const VERBS: [Entry; 29] = [
    exactly("build", Verb::Build, 4),
    exactly("check", Verb::Check, 0),
    exactly("list", Verb::List, 0),
    exactly("load", Verb::Load, 1),
    exactly("run", Verb::Run, 6),
    exactly("step", Verb::Step, 6),
    exactly("preview", Verb::Preview, 6),
    exactly("power", Verb::Power, 1),
    takes("raise", Verb::Raise, 0, MOST, WORD),
    exactly("trace", Verb::Trace, 1),
    exactly("table", Verb::Table, 1),
    exactly("cut", Verb::Cut, 2),
    takes("play", Verb::Play, 5, MANY, WORD),
    exactly("decode", Verb::Decode, 1),
    exactly("fibonacci", Verb::Fibonacci, 1),
    takes("places", Verb::Places, 1, 1, u64::MAX),
    takes("number", Verb::Number, 0, MANY, BYTE),
    takes("hofstadter", Verb::Hofstadter, 1, 1, u64::MAX),
    exactly("inverse", Verb::Inverse, 2),
    exactly("height", Verb::Height, 1),
    exactly("prime", Verb::Prime, 1),
    exactly("mulmod", Verb::Mulmod, 3),
    exactly("powmod", Verb::Powmod, 3),
    exactly("help", Verb::Help, 0),
    exactly("--help", Verb::Help, 0),
    exactly("-h", Verb::Help, 0),
    exactly("version", Verb::Version, 0),
    exactly("--version", Verb::Version, 0),
    exactly("script", Verb::Script, 0),
];

/// What a line of a script may begin with besides.
pub(crate) const SCRIPT_VERBS: [Entry; 6] = [
    takes("tape", Verb::Tape, 0, MANY, WORD),
    takes("append", Verb::Append, 0, MANY, WORD),
    exactly("change", Verb::Change, 2),
    exactly("drop", Verb::Drop, 1),
    exactly("behind", Verb::Behind, 0),
    takes("room", Verb::Room, 0, 1, MOST_ROW_WORDS as u64),
];

impl Verb {
    /// Whether the verb takes a tape.
    pub(crate) fn takes_tape(self) -> bool {
        matches!(
            self,
            Verb::Check
                | Verb::List
                | Verb::Load
                | Verb::Run
                | Verb::Step
                | Verb::Preview
                | Verb::Power
                | Verb::Raise
                | Verb::Trace
                | Verb::Table
                | Verb::Cut
                | Verb::Play
        )
    }
}
