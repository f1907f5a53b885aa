//! The text of answers.
use crate::book::Reply;
use crate::heap::{Refusal, Report};
use crate::mesh::Kind;
use crate::search::Found;

const DIGITS: &[u8; 16] = b"0123456789abcdef";

/// A text to which answers are added.
pub struct Text {
    bytes: Vec<u8>,
}

impl Text {
    pub fn new() -> Text {
        Text {
            bytes: Vec::with_capacity(1 << 20),
        }
    }

    pub fn into_bytes(self) -> Vec<u8> {
        self.bytes
    }

    /// Returns the text, and empties it.
    pub fn take(&mut self) -> Vec<u8> {
        std::mem::take(&mut self.bytes)
    }

    pub fn add(&mut self, words: &str) {
        self.add_bytes(words.as_bytes());
    }

    pub fn add_bytes(&mut self, bytes: &[u8]) {
        self.bytes.extend_from_slice(bytes);
    }

    pub fn end_line(&mut self) {
        self.bytes.push(b'\n');
    }

    pub fn add_number(&mut self, number: u32) {
        self.add_digits::<10>(number);
    }

    fn add_address(&mut self, address: u32) {
        self.add_digits::<16>(address);
    }

    fn add_digits<const BASE: u32>(&mut self, number: u32) {
        let mut digits = [0; 10];
        let mut first = digits.len();
        let mut left = number;
        loop {
            first -= 1;
            digits[first] = DIGITS[(left % BASE) as usize];
            left /= BASE;
            if left == 0 {
                break;
            }
        }
        self.bytes.extend_from_slice(&digits[first..]);
    }

    /// Adds at most 32 bytes, two digits each.
    fn add_hex(&mut self, bytes: &[u8]) {
        let mut digits = [0; 64];
        for (pair, byte) in digits.chunks_exact_mut(2).zip(bytes) {
            pair[0] = DIGITS[usize::from(byte >> 4)];
            pair[1] = DIGITS[usize::from(byte & 15)];
        }
        self.bytes.extend_from_slice(&digits[..2 * bytes.len()]);
    }

    pub fn add_reply(&mut self, reply: &Reply) {
        match reply {
            Reply::Object(object) => {
                self.add("object ");
                self.add_number(object.serial);
                self.add(" at ");
                self.add_address(object.address);
            }
            Reply::Done => self.add("done"),
            Reply::Bytes(bytes) => {
                self.add("bytes ");
                self.add_hex(bytes.as_slice());
            }
            Reply::At(address) => {
                self.add("at ");
                self.add_address(*address);
            }
            Reply::Byte(byte) => {
                self.add("byte ");
                self.add_hex(&[*byte]);
            }
            Reply::Refused(refusal) => self.add_refusal(*refusal),
        }
    }

    /// Adds a reply without serial and address, which depend on the schedule of threads.
    pub fn add_reply_of_any_schedule(&mut self, reply: &Reply) {
        match reply {
            Reply::Object(_) => self.add("object"),
            Reply::At(_) => self.add("at"),
            _ => self.add_reply(reply),
        }
    }

    fn add_refusal(&mut self, refusal: Refusal) {
        self.add("refused ");
        self.add_number(refusal as u32);
        self.add(" ");
        self.add(name_of(refusal));
    }

    /// Adds a word and a number, or a refusal.
    pub fn add_count(&mut self, word: &str, count: Result<u32, Refusal>) {
        match count {
            Ok(count) => {
                self.add(word);
                self.add_number(count);
            }
            Err(refusal) => self.add_refusal(refusal),
        }
    }

    pub fn add_step(&mut self, step: Result<(Kind, u32), Refusal>) {
        match step {
            Ok((kind, left)) => {
                self.add(kind_name(kind));
                self.add_count(" left ", Ok(left));
            }
            Err(refusal) => self.add_refusal(refusal),
        }
    }

    pub fn add_found(&mut self, found: &Found) {
        self.add_count("found ", Ok(found.pairs.len() as u32));
        self.add_count(" probes ", Ok(found.tries));
        for &(source, destination) in &found.pairs {
            self.add_count(" ", Ok(u32::from(source)));
            self.add_count(":", Ok(u32::from(destination)));
        }
    }

    pub fn add_report(&mut self, report: &Report) {
        self.add_count("report objects ", Ok(report.objects));
        self.add_count(" bytes ", Ok(report.bytes));
        self.add_count(" mapped ", Ok(report.mapped));
        self.add_count(" taken ", Ok(report.taken));
        self.add_count(" saved ", Ok(report.mapped - report.taken));
    }
}

fn kind_name(kind: Kind) -> &'static str {
    match kind {
        Kind::Protect => "protect",
        Kind::Copy => "copy",
        Kind::Remap => "remap",
        Kind::Unprotect => "unprotect",
        Kind::Release => "release",
    }
}

fn name_of(refusal: Refusal) -> &'static str {
    match refusal {
        Refusal::Zero => "ZERO",
        Refusal::TooLarge => "TOO_LARGE",
        Refusal::NoPages => "NO_PAGES",
        Refusal::NoAddresses => "NO_ADDRESSES",
        Refusal::Empty => "EMPTY",
        Refusal::Freed => "FREED",
        Refusal::Outside => "OUTSIDE",
        Refusal::Stray => "STRAY",
        Refusal::NoGroup => "NO_GROUP",
        Refusal::Same => "SAME",
        Refusal::Class => "CLASS",
        Refusal::Busy => "BUSY",
        Refusal::Overlap => "OVERLAP",
        Refusal::Members => "MEMBERS",
        Refusal::NoMesh => "NO_MESH",
        Refusal::TooLate => "TOO_LATE",
        Refusal::NotEmpty => "NOT_EMPTY",
    }
}
