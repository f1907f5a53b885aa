//! Meshes: step by step, and whole.
use crate::class::{PAGES, SLOTS};
use crate::heap::{Heap, Refusal, MAX_MEMBERS, READ_ONLY};
use crate::number_set::bits;

/// A running mesh.
pub struct Mesh {
    pub source: u16,
    pub destination: u16,
    pub progress: Progress,
    /// The number of steps that are left.
    pub left: u32,
    /// The number of meshes that began before this one.
    pub place: u32,
}

/// The steps that a mesh has made: from its beginning, or after it was cancelled.
#[derive(Clone, Copy)]
pub enum Progress {
    Made(u32),
    Unwinding(u32),
}

/// The kind of a step.
#[derive(Clone, Copy)]
pub enum Kind {
    Protect,
    Copy,
    Remap,
    Unprotect,
    Release,
}

/// A step: its kind, and an index among the steps of this kind.
struct Step {
    kind: Kind,
    index: u32,
}

/// The step after `made` steps of a mesh with `mapped` virtual pages in the source and `slots` slots.
fn step_after(made: u32, mapped: u32, slots: u32) -> Step {
    let mut index = made;
    for (kind, count) in [
        (Kind::Protect, mapped),
        (Kind::Copy, slots),
        (Kind::Remap, mapped),
        (Kind::Unprotect, mapped),
    ] {
        if index < count {
            return Step { kind, index };
        }
        index -= count;
    }
    Step {
        kind: Kind::Release,
        index,
    }
}

/// Whether two groups have no common occupied slot.
pub fn are_disjoint(one: &[u64; 4], other: &[u64; 4]) -> bool {
    let common =
        (one[0] & other[0]) | (one[1] & other[1]) | (one[2] & other[2]) | (one[3] & other[3]);
    common == 0
}

impl Heap {
    /// Returns the class of a mesh that may begin. If `is_alone` is set, no other mesh may run.
    fn class_to_mesh(
        &self,
        source: u16,
        destination: u16,
        is_alone: bool,
    ) -> Result<usize, Refusal> {
        let (from, to) = (self.group(source)?, self.group(destination)?);
        let class = usize::from(from.class);
        if source == destination {
            return Err(Refusal::Same);
        }
        if from.class != to.class {
            return Err(Refusal::Class);
        }
        if self.meshes[class].is_some() || is_alone && self.meshes.iter().any(Option::is_some) {
            return Err(Refusal::Busy);
        }
        if !are_disjoint(&from.occupied, &to.occupied) {
            return Err(Refusal::Overlap);
        }
        if from.members().len() + to.members().len() > MAX_MEMBERS {
            return Err(Refusal::Members);
        }
        Ok(class)
    }

    /// The number of virtual pages that are mapped to a group's physical pages.
    fn mapped_to(&self, group: u16) -> u32 {
        let group = &self.groups[usize::from(group)];
        group.members().len() as u32 * PAGES[usize::from(group.class)]
    }

    /// Begins a mesh. Returns the number of its steps.
    pub fn begin(&mut self, source: u16, destination: u16, is_alone: bool) -> Result<u32, Refusal> {
        let class = self.class_to_mesh(source, destination, is_alone)?;
        let left = 3 * self.mapped_to(source) + SLOTS[class] + PAGES[class];
        self.meshes[class] = Some(Mesh {
            source,
            destination,
            progress: Progress::Made(0),
            left,
            place: self.begun,
        });
        self.begun += 1;
        for group in [source, destination] {
            self.groups[usize::from(group)].is_in_mesh = true;
            self.file_group(group);
        }
        Ok(left)
    }

    fn end_mesh(&mut self, class: usize) {
        let Some(mesh) = self.meshes[class].take() else {
            return;
        };
        for group in [mesh.source, mesh.destination] {
            self.groups[usize::from(group)].is_in_mesh = false;
            self.file_group(group);
        }
    }

    /// The virtual page with an index among those of a group, and its index in its span.
    fn virtual_page(&self, group: u16, index: u32) -> (usize, usize) {
        let group = &self.groups[usize::from(group)];
        let count = PAGES[usize::from(group.class)];
        let span = &self.spans[usize::from(group.members()[(index / count) as usize])];
        (
            (span.first + index % count) as usize,
            (index % count) as usize,
        )
    }

    /// Makes a step of the mesh of a class. Returns its kind and the number of steps that are left.
    pub fn step(&mut self, class: usize) -> Result<(Kind, u32), Refusal> {
        let mesh = self.meshes[class].as_mut().ok_or(Refusal::NoMesh)?;
        let (source, destination) = (mesh.source, mesh.destination);
        mesh.left -= 1;
        let (left, progress) = (mesh.left, mesh.progress);
        let made = match &mut mesh.progress {
            Progress::Made(made) | Progress::Unwinding(made) => made,
        };
        *made += 1;
        let step = match progress {
            Progress::Made(made) => step_after(made, self.mapped_to(source), SLOTS[class]),
            Progress::Unwinding(index) => Step {
                kind: Kind::Unprotect,
                index,
            },
        };
        self.make(source, destination, &step);
        if left == 0 {
            if let Progress::Made(_) = progress {
                self.merge(source, destination);
            }
            self.end_mesh(class);
        }
        Ok((step.kind, left))
    }

    fn make(&mut self, source: u16, destination: u16, step: &Step) {
        match step.kind {
            Kind::Protect => {
                let (page, _) = self.virtual_page(source, step.index);
                self.map[page] |= READ_ONLY;
            }
            Kind::Copy => self.copy_slot(source, destination, step.index),
            Kind::Remap => {
                let (page, place) = self.virtual_page(source, step.index);
                let target = self.groups[usize::from(destination)].pages[place];
                self.map[page] = target | (self.map[page] & READ_ONLY);
            }
            Kind::Unprotect => {
                let (page, _) = self.virtual_page(source, step.index);
                self.map[page] &= !READ_ONLY;
            }
            Kind::Release => {
                let page = self.groups[usize::from(source)].pages[step.index as usize];
                self.free_page(page);
            }
        }
    }

    /// Cancels the mesh of a class. Returns the number of pages that it must still unprotect.
    pub fn cancel(&mut self, class: usize) -> Result<u32, Refusal> {
        let mesh = self.meshes[class].as_ref().ok_or(Refusal::NoMesh)?;
        let made = match mesh.progress {
            Progress::Unwinding(_) => return Ok(mesh.left),
            Progress::Made(made) => made,
        };
        let mapped = self.mapped_to(mesh.source);
        if made > mapped + SLOTS[class] {
            return Err(Refusal::TooLate);
        }
        let left = made.min(mapped);
        if left == 0 {
            self.end_mesh(class);
        } else if let Some(mesh) = &mut self.meshes[class] {
            mesh.progress = Progress::Unwinding(0);
            mesh.left = left;
        }
        Ok(left)
    }

    /// The number of physical pages of a group that a running mesh has freed.
    pub fn released(&self, group: u16) -> u32 {
        let class = usize::from(self.groups[usize::from(group)].class);
        match &self.meshes[class] {
            Some(mesh) if mesh.source == group => match mesh.progress {
                Progress::Made(made) => {
                    made.saturating_sub(3 * self.mapped_to(group) + SLOTS[class])
                }
                Progress::Unwinding(_) => 0,
            },
            _ => 0,
        }
    }

    /// Makes all steps of a mesh at once. Returns the number of physical pages that are freed.
    pub fn whole(&mut self, source: u16, destination: u16, is_alone: bool) -> Result<u32, Refusal> {
        let class = self.class_to_mesh(source, destination, is_alone)?;
        let occupied = self.groups[usize::from(source)].occupied;
        for slot in bits(&occupied) {
            self.copy_slot(source, destination, slot as u32);
        }
        let targets = self.groups[usize::from(destination)].pages;
        for index in 0..self.mapped_to(source) {
            let (page, place) = self.virtual_page(source, index);
            self.map[page] = targets[place];
        }
        let pages = self.groups[usize::from(source)].pages;
        for &page in &pages[..PAGES[class] as usize] {
            self.free_page(page);
        }
        self.merge(source, destination);
        self.file_group(source);
        self.file_group(destination);
        Ok(PAGES[class])
    }
}
