//! Scripts on threads, while another thread meshes. All threads share a book under a lock.
use crate::answers::Text;
use crate::book::{Attempt, Book, Entry, Reply};
use crate::class::CLASSES;
use crate::job::{Command, Job};
use crate::search::split_search;
use std::sync::RwLock;
use std::thread;

/// What the meshing thread does: its rounds, the rounds of tries of each search, and the seed of its random words.
pub struct Meshing {
    pub rounds: u32,
    pub probe: usize,
    pub seed: u64,
}

/// A call of a worker. A read also has the number of entries that the journal had at the read.
struct Call {
    command: Command,
    reply: Reply,
    seen: Option<u32>,
}

/// Runs a job's scripts. Returns each worker's answers and the number of commands in the history of all threads.
pub fn run(job: &Job, meshing: &Meshing) -> Vec<u8> {
    let lock = RwLock::new(Book::new(job.pages, job.history));
    let seats: Vec<Vec<Call>> = thread::scope(|scope| {
        let mesher = scope.spawn(|| mesh(&lock, meshing));
        let workers: Vec<_> = job
            .scripts
            .iter()
            .enumerate()
            .map(|(worker, script)| {
                let lock = &lock;
                scope.spawn(move || run_script(lock, worker as u8, script))
            })
            .collect();
        let seats = workers
            .into_iter()
            .map(|worker| worker.join().expect("a worker ends"))
            .collect();
        mesher.join().expect("the mesher ends");
        seats
    });
    let book = lock.into_inner().expect("no thread panics");
    let history = merged(&book.journal, &seats);
    printed(&seats, history.len())
}

/// Makes the calls of a script. A blocked store is retried.
fn run_script(lock: &RwLock<Book>, worker: u8, script: &[Command]) -> Vec<Call> {
    let mut calls = Vec::with_capacity(script.len());
    for command in script {
        calls.push(call(lock, worker, command));
    }
    calls
}

fn call(lock: &RwLock<Book>, worker: u8, command: &Command) -> Call {
    if command.is_read() {
        let book = lock.read().expect("no thread panics");
        if let Some(reply) = book.read(command) {
            return Call {
                command: *command,
                reply: reply.unwrap_or_else(Reply::Refused),
                seen: Some(book.journal.len() as u32),
            };
        }
    }
    loop {
        let attempt = lock
            .write()
            .expect("no thread panics")
            .attempt(worker, command);
        match attempt {
            Attempt::Done(reply) => {
                return Call {
                    command: *command,
                    reply,
                    seen: None,
                }
            }
            Attempt::Blocked => thread::yield_now(),
            Attempt::HistoryFull => panic!("the history is shorter than the scripts"),
        }
    }
}

/// Searches each class and meshes the pairs, once a round. Each call of the book takes the lock anew.
fn mesh(lock: &RwLock<Book>, meshing: &Meshing) {
    let mut state = meshing.seed;
    for _ in 0..meshing.rounds {
        for class in 0..CLASSES {
            let candidates = lock
                .read()
                .expect("no thread panics")
                .heap
                .candidates(class);
            let words: Vec<u64> = candidates.iter().map(|_| next_word(&mut state)).collect();
            for (source, destination) in split_search(&candidates, meshing.probe, &words).pairs {
                mesh_pair(lock, class, source, destination);
            }
        }
    }
}

/// Meshes a pair step by step, unless it is refused.
fn mesh_pair(lock: &RwLock<Book>, class: usize, source: u16, destination: u16) {
    let book = || lock.write().expect("no thread panics");
    let begun = book().heap.begin(source, destination, false);
    let mut left = begun.unwrap_or(0);
    while left > 0 {
        left = match book().heap.step(class) {
            Ok((_, left)) => left,
            Err(_) => 0,
        };
    }
}

/// The next random word (SplitMix64).
fn next_word(state: &mut u64) -> u64 {
    *state = state.wrapping_add(0x9e37_79b9_7f4a_7c15);
    let mut word = *state;
    word = (word ^ (word >> 30)).wrapping_mul(0xbf58_476d_1ce4_e5b9);
    word = (word ^ (word >> 27)).wrapping_mul(0x94d0_49bb_1331_11eb);
    word ^ (word >> 31)
}

/// The journal with the reads between its entries: each read comes after exactly the entries that it saw.
fn merged(journal: &[Entry], seats: &[Vec<Call>]) -> Vec<Entry> {
    let mut next = vec![0; seats.len()];
    let mut history = Vec::with_capacity(seats.iter().map(Vec::len).sum());
    for length in 0..=journal.len() {
        for (worker, (calls, next)) in seats.iter().zip(&mut next).enumerate() {
            while let Some(call) = calls.get(*next) {
                match call.seen {
                    Some(seen) if seen as usize == length => history.push(Entry {
                        worker: worker as u8,
                        command: call.command,
                        reply: call.reply,
                    }),
                    _ => break,
                }
                *next += 1;
            }
        }
        if let Some(entry) = journal.get(length) {
            next[usize::from(entry.worker)] += 1;
            history.push(*entry);
        }
    }
    history
}

fn printed(seats: &[Vec<Call>], history: usize) -> Vec<u8> {
    let mut text = Text::new();
    for (worker, calls) in seats.iter().enumerate() {
        text.add_count("worker ", Ok(worker as u32));
        text.end_line();
        for call in calls {
            text.add_reply_of_any_schedule(&call.reply);
            text.end_line();
        }
    }
    text.add_count("history ", Ok(history as u32));
    text.end_line();
    text.into_bytes()
}
