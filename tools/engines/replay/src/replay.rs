//! The replay of a job's plan.
use crate::answers::Text;
use crate::book::{Attempt, Book};
use crate::echo::Echo;
use crate::frames;
use crate::job::{Job, Line};
use crate::search::split_search;
use std::io::{self, Write};
use std::ops::RangeInclusive;

/// The answers to the lines of a job's plan.
pub fn replayed(job: &Job) -> Vec<u8> {
    let mut player = Player::new(job);
    for line in &job.plan {
        player.play(line);
        player.text.end_line();
    }
    player.text.into_bytes()
}

/// The lines of a job's plan. Each has the command that is attempted, ` -> ` and its answer behind it.
pub fn echoed(job: &Job, echo: &Echo) -> Vec<u8> {
    let mut player = Player::new(job);
    for (place, line) in job.plan.iter().enumerate() {
        player.text.add_bytes(echo.line(place));
        if let Line::Run(worker) = *line {
            player.add_command(" ", worker, echo);
        }
        player.text.add(" -> ");
        player.play(line);
        player.text.end_line();
    }
    player.text.into_bytes()
}

/// Writes each line of a job's plan whose number, counted from 1, is in a range. The line is followed by its answer and
/// by the heap after it.
pub fn write_frames(
    job: &Job,
    echo: &Echo,
    shown: &RangeInclusive<usize>,
    out: &mut impl Write,
) -> io::Result<()> {
    let mut player = Player::new(job);
    for (place, line) in job.plan.iter().enumerate().take(*shown.end()) {
        let number = place + 1;
        player.text.add(&format!("line {number}: "));
        if let Line::Run(worker) = *line {
            player.text.add(&format!("worker {worker}"));
            player.add_command(": ", worker, echo);
        } else {
            player.text.add_bytes(echo.line(place));
        }
        player.text.add(" -> ");
        player.play(line);
        player.text.end_line();
        if shown.contains(&number) {
            frames::add_frame(&mut player.text, &player.book.heap);
            out.write_all(&player.text.take())?;
        } else {
            player.text.take();
        }
    }
    Ok(())
}

struct Player<'a> {
    job: &'a Job,
    book: Book,
    /// For each worker the number of its commands that were answered.
    next: Vec<usize>,
    text: Text,
}

impl Player<'_> {
    fn new(job: &Job) -> Player<'_> {
        Player {
            job,
            book: Book::new(job.pages, job.history),
            next: vec![0; job.scripts.len()],
            text: Text::new(),
        }
    }

    /// Adds the command that a worker attempts next, after these words. Adds nothing if its script is over.
    fn add_command(&mut self, words: &str, worker: u8, echo: &Echo) {
        let worker = usize::from(worker);
        if let Some(command) = echo.command(worker, self.next[worker]) {
            self.text.add(words);
            self.text.add_bytes(command);
        }
    }

    fn play(&mut self, line: &Line) {
        let heap = &mut self.book.heap;
        let is_alone = self.job.version == 1;
        match *line {
            Line::Run(worker) => self.run(worker),
            Line::Pair {
                class,
                rounds,
                first,
                count,
            } => {
                let candidates = heap.candidates(usize::from(class));
                let words = &self.job.words[first as usize..][..usize::from(count)];
                let found = split_search(&candidates, usize::from(rounds), words);
                self.text.add_found(&found);
            }
            Line::Begin(source, destination) => {
                let left = heap.begin(source, destination, is_alone);
                self.text.add_count("left ", left);
            }
            Line::Step(class) => {
                let class = self.class_of_mesh(class);
                self.text.add_step(self.book.heap.step(class));
            }
            Line::Cancel(class) => {
                let class = self.class_of_mesh(class);
                self.text.add_count("left ", self.book.heap.cancel(class));
            }
            Line::Whole(source, destination) => {
                let freed = heap.whole(source, destination, is_alone);
                self.text.add_count("meshed ", freed);
            }
            Line::Sweep(group) => self.text.add_count("swept ", heap.sweep(group)),
            Line::Report => self.text.add_report(&heap.report()),
        }
    }

    fn run(&mut self, worker: u8) {
        let next = &mut self.next[usize::from(worker)];
        let Some(command) = self.job.scripts[usize::from(worker)].get(*next) else {
            return self.text.add("over");
        };
        match self.book.attempt(worker, command) {
            Attempt::Done(reply) => {
                *next += 1;
                self.text.add_reply(&reply);
            }
            Attempt::Blocked => self.text.add("blocked"),
            Attempt::HistoryFull => self.text.add("history full"),
        }
    }

    /// The class that a line names, or the class of the running mesh.
    fn class_of_mesh(&self, class: Option<u8>) -> usize {
        class.map_or_else(
            || {
                let meshes = &self.book.heap.meshes;
                meshes.iter().position(Option::is_some).unwrap_or(0)
            },
            usize::from,
        )
    }
}
