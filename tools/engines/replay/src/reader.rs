//! Reading job files.
use crate::class::class_of_size;
use crate::job::{Bytes, Command, CopyBytes, Job, Line};
use std::ops::RangeInclusive;

/// The greatest length of a job file.
pub const MAX_BYTES: usize = 1 << 20;

/// The greatest length of a line.
const MAX_LINE: usize = 1024;

/// The greatest number of fields of a line that is kept: `pair` with 32 words, and one field too many.
const MAX_FIELDS: usize = 36;

/// The kind of a fault of a text.
#[derive(Clone, Copy, PartialEq, Eq)]
pub enum FaultKind {
    TooLong,
    Trailing,
    LongLine,
    Cut,
    Byte,
    Word,
    Number,
    Hex,
}

impl FaultKind {
    pub fn name(self) -> &'static str {
        match self {
            FaultKind::TooLong => "TOO_LONG",
            FaultKind::Trailing => "TRAILING",
            FaultKind::LongLine => "LONG_LINE",
            FaultKind::Cut => "CUT",
            FaultKind::Byte => "BYTE",
            FaultKind::Word => "WORD",
            FaultKind::Number => "NUMBER",
            FaultKind::Hex => "HEX",
        }
    }
}

/// The first fault of a text, and its line. The line is 0 if the text is too long.
pub struct Fault {
    pub line: usize,
    pub kind: FaultKind,
}

/// Reads a job file.
pub fn read(text: &[u8]) -> Result<Job, Fault> {
    if text.len() > MAX_BYTES {
        let kind = FaultKind::TooLong;
        return Err(Fault { line: 0, kind });
    }
    let mut lines = Lines {
        text,
        next: 0,
        number: 0,
    };
    let job = read_job(&mut lines).map_err(|kind| Fault {
        line: lines.number,
        kind,
    })?;
    if lines.next < text.len() {
        return Err(Fault {
            line: lines.number + 1,
            kind: FaultKind::Trailing,
        });
    }
    Ok(job)
}

/// The lines of a text, one after another.
struct Lines<'a> {
    text: &'a [u8],
    next: usize,
    number: usize,
}

/// The fields of a line.
struct Fields<'a> {
    fields: [&'a [u8]; MAX_FIELDS],
    count: usize,
}

impl<'a> Fields<'a> {
    fn new() -> Fields<'a> {
        Fields {
            fields: [&[]; MAX_FIELDS],
            count: 0,
        }
    }

    /// The first field.
    fn word(&self) -> &'a [u8] {
        self.fields[0]
    }

    /// The fields after the first, if there are `N`.
    fn values<const N: usize>(&self) -> Result<&[&'a [u8]; N], FaultKind> {
        self.fields[1..self.count]
            .try_into()
            .map_err(|_| FaultKind::Word)
    }
}

impl<'a> Lines<'a> {
    /// Reads the fields of the next line.
    fn read(&mut self, line: &mut Fields<'a>) -> Result<(), FaultKind> {
        self.number += 1;
        let rest = &self.text[self.next..];
        let bytes = &rest[..rest.len().min(MAX_LINE + 1)];
        let (mut count, mut start, mut end) = (0, 0, 0);
        let (mut has_bad_byte, mut has_empty_field) = (false, false);
        while let Some(&byte) = bytes.get(end) {
            if byte > b' ' {
                has_bad_byte |= byte > b'~';
            } else if byte == b' ' || byte == b'\n' {
                has_empty_field |= start == end;
                if count < MAX_FIELDS {
                    line.fields[count] = &bytes[start..end];
                    count += 1;
                }
                start = end + 1;
                if byte == b'\n' {
                    self.next += start;
                    line.count = count;
                    return fault_of(has_bad_byte, has_empty_field);
                }
            } else {
                has_bad_byte = true;
            }
            end += 1;
        }
        Err(if bytes.len() > MAX_LINE {
            FaultKind::LongLine
        } else {
            FaultKind::Cut
        })
    }

    /// Reads a line that is a word and a number.
    fn read_head(&mut self, word: &[u8], range: RangeInclusive<u64>) -> Result<u32, FaultKind> {
        let mut line = Fields::new();
        self.read(&mut line)?;
        let [value] = line.values()?;
        if line.word() != word {
            return Err(FaultKind::Word);
        }
        Ok(number_in(value, range)? as u32)
    }
}

fn fault_of(has_bad_byte: bool, has_empty_field: bool) -> Result<(), FaultKind> {
    if has_bad_byte {
        Err(FaultKind::Byte)
    } else if has_empty_field {
        Err(FaultKind::Word)
    } else {
        Ok(())
    }
}

fn read_job(lines: &mut Lines) -> Result<Job, FaultKind> {
    let version = lines.read_head(b"mesh", 1..=2)?;
    let pages = lines.read_head(b"pages", 1..=4096)?;
    let history = lines.read_head(b"history", 0..=65_536)?;
    let workers = lines.read_head(b"workers", 1..=64)?;
    let mut job = Job {
        version,
        pages,
        history,
        scripts: Vec::new(),
        plan: Vec::new(),
        words: Vec::new(),
    };
    lines.read_head(b"worker", 0..=0)?;
    read_scripts(lines, workers, &mut job)?;
    read_plan(lines, workers, &mut job)?;
    Ok(job)
}

/// Reads the scripts, after the line of the first worker and up to the line `plan`.
fn read_scripts<'a>(lines: &mut Lines<'a>, workers: u32, job: &mut Job) -> Result<(), FaultKind> {
    let mut line: Fields<'a> = Fields::new();
    let mut script = Vec::new();
    loop {
        lines.read(&mut line)?;
        let worker = job.scripts.len() as u64 + 1;
        match line.word() {
            b"worker" if worker < u64::from(workers) => {
                let [number] = line.values()?;
                number_in(number, worker..=worker)?;
                job.scripts.push(std::mem::take(&mut script));
            }
            b"plan" if worker == u64::from(workers) => {
                let [] = line.values()?;
                job.scripts.push(script);
                return Ok(());
            }
            _ => script.push(command(&line, job.version)?),
        }
    }
}

fn command(line: &Fields, version: u32) -> Result<Command, FaultKind> {
    Ok(match line.word() {
        b"new" => {
            let [cell, len, word] = line.values()?;
            Command::New {
                cell: byte_number(cell)?,
                len: short_number(len)?,
                word: number(word)?,
            }
        }
        b"put" => {
            let [cell, off, bytes] = line.values()?;
            Command::Put {
                cell: byte_number(cell)?,
                off: short_number(off)?,
                bytes: hex(bytes)?,
            }
        }
        b"get" => {
            let [cell, off, len] = line.values()?;
            Command::Get {
                cell: byte_number(cell)?,
                off: short_number(off)?,
                len: number_in(len, 1..=32)? as u8,
            }
        }
        b"free" => {
            let [cell] = line.values()?;
            Command::Free {
                cell: byte_number(cell)?,
            }
        }
        b"alias" => {
            let [to, from] = line.values()?;
            Command::Alias {
                to: byte_number(to)?,
                from: byte_number(from)?,
            }
        }
        b"addr" => {
            let [cell] = line.values()?;
            Command::Addr {
                cell: byte_number(cell)?,
            }
        }
        b"peek" => {
            let [at] = line.values()?;
            Command::Peek {
                address: address(at)?,
            }
        }
        b"poke" => {
            let [at, byte] = line.values()?;
            Command::Poke {
                address: address(at)?,
                byte: hex_byte(byte)?,
            }
        }
        b"copy" if version == 2 => {
            let [to, to_off, from, from_off, len] = line.values()?;
            Command::Copy(CopyBytes {
                to: byte_number(to)?,
                to_off: short_number(to_off)?,
                from: byte_number(from)?,
                from_off: short_number(from_off)?,
                len: number_in(len, 1..=32)? as u8,
            })
        }
        _ => return Err(FaultKind::Word),
    })
}

/// Reads the plan, up to the line `end`.
fn read_plan<'a>(lines: &mut Lines<'a>, workers: u32, job: &mut Job) -> Result<(), FaultKind> {
    let mut line: Fields<'a> = Fields::new();
    loop {
        lines.read(&mut line)?;
        let planned = match line.word() {
            b"run" => {
                let [worker] = line.values()?;
                Line::Run(number_in(worker, 0..=u64::from(workers) - 1)? as u8)
            }
            b"pair" => pair(&line, &mut job.words)?,
            b"begin" => {
                let [source, destination] = line.values()?;
                Line::Begin(short_number(source)?, short_number(destination)?)
            }
            b"step" => Line::Step(class_of_line(&line, job.version)?),
            b"cancel" => Line::Cancel(class_of_line(&line, job.version)?),
            b"whole" => {
                let [source, destination] = line.values()?;
                Line::Whole(short_number(source)?, short_number(destination)?)
            }
            b"sweep" => {
                let [group] = line.values()?;
                Line::Sweep(short_number(group)?)
            }
            b"report" => {
                let [] = line.values()?;
                Line::Report
            }
            b"end" => {
                let [] = line.values()?;
                return Ok(());
            }
            _ => return Err(FaultKind::Word),
        };
        job.plan.push(planned);
    }
}

fn pair(line: &Fields, words: &mut Vec<u64>) -> Result<Line, FaultKind> {
    if !(3..MAX_FIELDS).contains(&line.count) {
        return Err(FaultKind::Word);
    }
    let class = class(line.fields[1])?;
    let rounds = number_in(line.fields[2], 0..=64)? as u8;
    let first = words.len();
    for field in &line.fields[3..line.count] {
        words.push(number(field)?);
    }
    Ok(Line::Pair {
        class,
        rounds,
        first: first as u32,
        count: (words.len() - first) as u8,
    })
}

/// Reads the class of a line `step` or `cancel`, which only version 2 has.
fn class_of_line(line: &Fields, version: u32) -> Result<Option<u8>, FaultKind> {
    if version == 1 {
        let [] = line.values()?;
        return Ok(None);
    }
    let [size] = line.values()?;
    Ok(Some(class(size)?))
}

fn class(field: &[u8]) -> Result<u8, FaultKind> {
    let class = class_of_size(number(field)?).ok_or(FaultKind::Number)?;
    Ok(class as u8)
}

/// Reads a decimal number below 2^64.
fn number(field: &[u8]) -> Result<u64, FaultKind> {
    if field.len() > 20 || field[0] == b'0' && field.len() > 1 {
        return Err(FaultKind::Number);
    }
    let (first, last) = field.split_at(field.len().min(19));
    let mut value = 0u64;
    for byte in first {
        value = value * 10 + digit(*byte)?;
    }
    for byte in last {
        let digit = digit(*byte)?;
        value = value
            .checked_mul(10)
            .and_then(|value| value.checked_add(digit))
            .ok_or(FaultKind::Number)?;
    }
    Ok(value)
}

fn digit(byte: u8) -> Result<u64, FaultKind> {
    match byte {
        b'0'..=b'9' => Ok(u64::from(byte - b'0')),
        _ => Err(FaultKind::Number),
    }
}

fn number_in(field: &[u8], range: RangeInclusive<u64>) -> Result<u64, FaultKind> {
    let value = number(field)?;
    if !range.contains(&value) {
        return Err(FaultKind::Number);
    }
    Ok(value)
}

fn byte_number(field: &[u8]) -> Result<u8, FaultKind> {
    Ok(number_in(field, 0..=255)? as u8)
}

fn short_number(field: &[u8]) -> Result<u16, FaultKind> {
    Ok(number_in(field, 0..=65_535)? as u16)
}

fn hex_digit(byte: u8) -> Option<u8> {
    match byte {
        b'0'..=b'9' => Some(byte - b'0'),
        b'a'..=b'f' => Some(byte - b'a' + 10),
        _ => None,
    }
}

/// Reads an address below 2^28 in hexadecimal digits.
fn address(field: &[u8]) -> Result<u32, FaultKind> {
    if field.len() > 7 || field[0] == b'0' && field.len() > 1 {
        return Err(FaultKind::Number);
    }
    let mut value = 0;
    for &byte in field {
        let digit = hex_digit(byte).ok_or(FaultKind::Number)?;
        value = value << 4 | u32::from(digit);
    }
    Ok(value)
}

/// Reads at most 32 bytes, two hexadecimal digits each.
fn hex(field: &[u8]) -> Result<Bytes, FaultKind> {
    if !field.len().is_multiple_of(2) || field.len() > 64 {
        return Err(FaultKind::Hex);
    }
    let mut bytes = Bytes::zeros(field.len() / 2);
    for (byte, digits) in bytes.as_mut_slice().iter_mut().zip(field.chunks_exact(2)) {
        *byte = hex_byte(digits)?;
    }
    Ok(bytes)
}

fn hex_byte(field: &[u8]) -> Result<u8, FaultKind> {
    let &[high, low] = field else {
        return Err(FaultKind::Hex);
    };
    match (hex_digit(high), hex_digit(low)) {
        (Some(high), Some(low)) => Ok(high << 4 | low),
        _ => Err(FaultKind::Hex),
    }
}
