//! The ledger of open tags, for a host.

use crate::ffi;
use crate::{Command, Refusal};
use core::fmt;

/// How many words a ledger has.
pub(crate) const WORDS: usize = 17;

/// How many commands can be open in a [`Ledger`]: so many lines it has.
pub const LEDGER_LINES: usize = 16;

/// The open commands of a host that has several open at a time, one ledger for each dongle. It gives
/// each command its tag, and tells which command an answer belongs to.
///
/// Ask for a tag with [`open`](Ledger::open), and write and send the command with it. Read each frame
/// that comes with [`read_frame`](crate::read_frame), and pass its type and its tag to
/// [`answer`](Ledger::answer). Where the dongle was unplugged, or its session has ended, call
/// [`connect`](Ledger::connect).
///
/// No two open commands have the same tag. Nor have they the same line, so the line can be the place
/// of what a host keeps about a command.
#[derive(Clone)]
pub struct Ledger {
    words: [u32; WORDS],
}

/// What an answer is to a [`Ledger`].
#[derive(Clone, Copy, Debug, PartialEq, Eq, Hash)]
pub enum Report {
    /// It answers an open command.
    Fits {
        /// The command.
        command: Command,
        /// Its line, under [`LEDGER_LINES`].
        line: usize,
        /// Whether it is closed by that. The OK to a TX leaves it open until its TX_DONE.
        closed: bool,
    },
    /// It answers no command: an RX, or an ERR with tag 0.
    Nobodys,
    /// No open command waits for it: it is late, doubled, or of another's.
    Unexpected,
}

impl Ledger {
    /// A ledger with no open command, whose first tag will be 1.
    #[must_use]
    pub fn new() -> Ledger {
        let mut ledger = Ledger { words: [0; WORDS] };
        ffi::ledger_new(&mut ledger.words);
        ledger
    }

    /// Opens a command, and answers its tag and its line: the lowest that is free. The tags go up by
    /// one, and on from 0xFFFF to 1, and pass over those that are open.
    ///
    /// # Errors
    ///
    /// [`Refusal::Ledger`] where [`LEDGER_LINES`] commands are open. Nothing has changed then.
    pub fn open(&mut self, command: Command) -> Result<(u16, usize), Refusal> {
        let (number, tag, line) = ffi::ledger_open(&mut self.words, command as u8);
        Refusal::check(number.into())?;
        Ok((tag, line.into()))
    }

    /// Takes an answer, by the type and the tag of its frame. The payload does not matter.
    ///
    /// OK and ERR fit an open command with that tag, and close it. But the OK to a TX leaves it open,
    /// and from then on TX_DONE alone fits, and closes it. What does not fit changes nothing.
    pub fn answer(&mut self, kind: u8, tag: u16) -> Report {
        let said = ffi::ledger_answer(&mut self.words, kind, tag);
        match (said.verdict, Command::from_number(said.command)) {
            (2, Some(command)) => Report::Fits {
                command,
                line: said.line.into(),
                closed: said.closed != 0,
            },
            (1, _) => Report::Nobodys,
            _ => Report::Unexpected, // 0: the library gives no other, and no other command was opened
        }
    }

    /// A new connection: no command is open. The tags go on, so that a late answer of the old one is
    /// [`Report::Unexpected`].
    pub fn connect(&mut self) {
        ffi::ledger_connect(&mut self.words);
    }
}

impl Default for Ledger {
    fn default() -> Ledger {
        Ledger::new()
    }
}

impl fmt::Debug for Ledger {
    fn fmt(&self, f: &mut fmt::Formatter<'_>) -> fmt::Result {
        f.debug_struct("Ledger").finish_non_exhaustive()
    }
}
