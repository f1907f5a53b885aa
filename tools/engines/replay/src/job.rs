//! Job files as values: the scripts of the workers, and the plan.

/// At most 32 bytes.
#[derive(Clone, Copy)]
pub struct Bytes {
    len: u8,
    data: [u8; 32],
}

impl Bytes {
    /// `len` zeros.
    pub fn zeros(len: usize) -> Bytes {
        Bytes {
            len: len as u8,
            data: [0; 32],
        }
    }

    pub fn as_slice(&self) -> &[u8] {
        &self.data[..usize::from(self.len)]
    }

    pub fn as_mut_slice(&mut self) -> &mut [u8] {
        &mut self.data[..usize::from(self.len)]
    }
}

/// A command of a script.
#[derive(Clone, Copy)]
pub enum Command {
    New { cell: u8, len: u16, word: u64 },
    Put { cell: u8, off: u16, bytes: Bytes },
    Get { cell: u8, off: u16, len: u8 },
    Free { cell: u8 },
    Alias { to: u8, from: u8 },
    Addr { cell: u8 },
    Peek { address: u32 },
    Poke { address: u32, byte: u8 },
    Copy(CopyBytes),
}

impl Command {
    /// Whether the command only reads.
    pub fn is_read(&self) -> bool {
        matches!(
            self,
            Command::Get { .. } | Command::Addr { .. } | Command::Peek { .. }
        )
    }
}

/// A copy of bytes from one object to another, or within an object.
#[derive(Clone, Copy)]
pub struct CopyBytes {
    pub to: u8,
    pub to_off: u16,
    pub from: u8,
    pub from_off: u16,
    pub len: u8,
}

/// A line of a plan. A class is `None` in a file of version 1, whose lines name no class.
#[derive(Clone, Copy)]
pub enum Line {
    Run(u8),
    /// A search. Its words are `count` words of the job from index `first` on.
    Pair {
        class: u8,
        rounds: u8,
        first: u32,
        count: u8,
    },
    Begin(u16, u16),
    Step(Option<u8>),
    Cancel(Option<u8>),
    Whole(u16, u16),
    Sweep(u16),
    Report,
}

/// A job file.
pub struct Job {
    /// 1 or 2. In version 1 at most one mesh runs at a time.
    pub version: u32,
    /// The number of physical pages.
    pub pages: u32,
    /// The greatest number of entries of the journal.
    pub history: u32,
    pub scripts: Vec<Vec<Command>>,
    pub plan: Vec<Line>,
    /// The words of all searches.
    pub words: Vec<u64>,
}
