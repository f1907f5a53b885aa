//! A heap with its cells, and with a journal of all commands that were answered.
use crate::heap::{Heap, Reference, Refusal, Store};
use crate::job::{Bytes, Command};

/// The reply to a command.
#[derive(Clone, Copy)]
pub enum Reply {
    Object(Reference),
    Done,
    Bytes(Bytes),
    At(u32),
    Byte(u8),
    Refused(Refusal),
}

/// What comes of an attempt at a command.
pub enum Attempt {
    Done(Reply),
    Blocked,
    HistoryFull,
}

/// An entry of the journal, and of a history.
#[derive(Clone, Copy)]
#[expect(dead_code, reason = "a journal is kept, but nothing prints it")]
pub struct Entry {
    pub worker: u8,
    pub command: Command,
    pub reply: Reply,
}

pub struct Book {
    pub heap: Heap,
    cells: [Option<Reference>; 256],
    pub journal: Vec<Entry>,
    most_entries: usize,
}

impl Book {
    /// A book with an empty heap of `pages` physical pages, and with room for `most_entries` entries.
    pub fn new(pages: u32, most_entries: u32) -> Book {
        Book {
            heap: Heap::new(pages),
            cells: [None; 256],
            journal: Vec::with_capacity(most_entries as usize),
            most_entries: most_entries as usize,
        }
    }

    /// Attempts a command, and records it if it is answered.
    pub fn attempt(&mut self, worker: u8, command: &Command) -> Attempt {
        if self.journal.len() == self.most_entries {
            return Attempt::HistoryFull;
        }
        let reply = match self.answer(command) {
            Ok(Some(reply)) => reply,
            Ok(None) => return Attempt::Blocked,
            Err(refusal) => Reply::Refused(refusal),
        };
        self.journal.push(Entry {
            worker,
            command: *command,
            reply,
        });
        Attempt::Done(reply)
    }

    /// Answers a command that only reads. Returns `None` for every other command.
    pub fn read(&self, command: &Command) -> Option<Result<Reply, Refusal>> {
        match *command {
            Command::Get { cell, off, len } => Some(self.get(cell, off, len)),
            Command::Addr { cell } => Some(self.address(cell)),
            Command::Peek { address } => Some(self.heap.peek(address).map(Reply::Byte)),
            _ => None,
        }
    }

    fn named_by(&self, cell: u8) -> Result<Reference, Refusal> {
        self.cells[usize::from(cell)].ok_or(Refusal::Empty)
    }

    fn get(&self, cell: u8, off: u16, len: u8) -> Result<Reply, Refusal> {
        let object = self.named_by(cell)?;
        let bytes = self.heap.read(object, u32::from(off), u32::from(len))?;
        Ok(Reply::Bytes(bytes))
    }

    fn address(&self, cell: u8) -> Result<Reply, Refusal> {
        let object = self.named_by(cell)?;
        self.heap.length(object)?;
        Ok(Reply::At(object.address))
    }

    /// Answers a command. Returns `None` if the command is blocked.
    fn answer(&mut self, command: &Command) -> Result<Option<Reply>, Refusal> {
        let stored = |store: Store| (store == Store::Made).then_some(Reply::Done);
        Ok(match *command {
            Command::New { cell, len, word } => {
                let object = self.heap.allocate(u32::from(len), word)?;
                self.cells[usize::from(cell)] = Some(object);
                Some(Reply::Object(object))
            }
            Command::Put {
                cell,
                off,
                ref bytes,
            } => {
                let object = self.named_by(cell)?;
                stored(self.heap.write(object, u32::from(off), bytes.as_slice())?)
            }
            Command::Free { cell } => {
                self.heap.free(self.named_by(cell)?)?;
                Some(Reply::Done)
            }
            Command::Alias { to, from } => {
                let object = self.named_by(from)?;
                self.heap.length(object)?;
                self.cells[usize::from(to)] = Some(object);
                Some(Reply::Done)
            }
            Command::Get { .. } | Command::Addr { .. } | Command::Peek { .. } => {
                self.read(command).transpose()?
            }
            Command::Poke { address, byte } => stored(self.heap.poke(address, byte)?),
            Command::Copy(copy) => {
                let to = (self.named_by(copy.to)?, u32::from(copy.to_off));
                let from = (self.named_by(copy.from)?, u32::from(copy.from_off));
                stored(self.heap.copy(to, from, u32::from(copy.len))?)
            }
        })
    }
}
