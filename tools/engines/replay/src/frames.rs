//! The heap after a line of a plan, as text.
//!
//! Each row begins with two spaces, and its numbers are decimal. The rows come in this order:
//!
//! - `group G class C span V` for each member of a group: the group, its class, and the member's first virtual page
//! - `page V at P` for each virtual page: its physical page; ` read-only` follows if stores to the page are blocked
//! - `object S span V slot K length L` for each live object: its serial, its member, its slot and its length in bytes
//! - `physical P group G` for each physical page of a group; ` released` follows if a running mesh has freed the page
//! - `mesh SRC:DST class C steps D` for each running mesh: its groups, its class and the number of its steps. For a
//!   cancelled mesh, `cancelled protected Q unprotected U` replaces `steps D`: the number of pages that the mesh had
//!   protected, and how many of them are writable again
//! - `pages mapped M taken T saved S`: the counts, as in the answer to `report`
//!
//! Groups are in ascending order, and so are the pages and the slots of a member. Members and physical pages are in the
//! order that their group has them, and meshes in the order in which they began.
use crate::answers::Text;
use crate::class::{PAGES, SIZE};
use crate::heap::{Group, Heap, Span, READ_ONLY};
use crate::mesh::{Mesh, Progress};

/// Adds the rows of a heap.
pub fn add_frame(text: &mut Text, heap: &Heap) {
    for (number, group) in groups(heap) {
        let class = SIZE[usize::from(group.class)];
        for Span { first, .. } in members(heap, group) {
            text.add(&format!("  group {number} class {class} span {first}\n"));
        }
    }
    for (_, group) in groups(heap) {
        let count = PAGES[usize::from(group.class)];
        for Span { first, .. } in members(heap, group) {
            (*first..first + count).for_each(|page| add_page(text, heap, page));
        }
    }
    for (_, group) in groups(heap) {
        members(heap, group).for_each(|span| add_objects(text, span));
    }
    for (number, group) in groups(heap) {
        add_physical_pages(text, heap, number, group);
    }
    for (class, mesh) in running(heap) {
        add_mesh(text, SIZE[class], mesh);
    }
    let counts = heap.report();
    let (mapped, taken, saved) = (counts.mapped, counts.taken, counts.mapped - counts.taken);
    text.add(&format!(
        "  pages mapped {mapped} taken {taken} saved {saved}\n"
    ));
}

/// The running meshes with their classes, in the order in which they began.
fn running(heap: &Heap) -> Vec<(usize, &Mesh)> {
    let of_classes = heap.meshes.iter().enumerate();
    let mut meshes: Vec<_> = of_classes
        .filter_map(|(class, mesh)| Some((class, mesh.as_ref()?)))
        .collect();
    meshes.sort_by_key(|(_, mesh)| mesh.place);
    meshes
}

/// The groups with their numbers, ascending.
fn groups(heap: &Heap) -> impl Iterator<Item = (u16, &Group)> {
    (0..heap.groups.len() as u16).filter_map(|number| Some((number, heap.group(number).ok()?)))
}

/// The spans of a group, in the group's order.
fn members<'a>(heap: &'a Heap, group: &'a Group) -> impl Iterator<Item = &'a Span> {
    let numbers = group.members().iter();
    numbers.map(|&number| &heap.spans[usize::from(number)])
}

fn add_page(text: &mut Text, heap: &Heap, page: u32) {
    let entry = heap.map[page as usize];
    let (target, is_read_only) = (entry & !READ_ONLY, entry & READ_ONLY != 0);
    let ending = if is_read_only { " read-only" } else { "" };
    text.add(&format!("  page {page} at {target}{ending}\n"));
}

fn add_objects(text: &mut Text, span: &Span) {
    let first = span.first;
    for (slot, record) in span.records.iter().enumerate() {
        let (serial, len) = (record.serial, record.len);
        if len != 0 {
            text.add(&format!(
                "  object {serial} span {first} slot {slot} length {len}\n"
            ));
        }
    }
}

fn add_physical_pages(text: &mut Text, heap: &Heap, number: u16, group: &Group) {
    let count = PAGES[usize::from(group.class)] as usize;
    let released = heap.released(number) as usize;
    for (place, page) in group.pages[..count].iter().enumerate() {
        let ending = if place < released { " released" } else { "" };
        text.add(&format!("  physical {page} group {number}{ending}\n"));
    }
}

fn add_mesh(text: &mut Text, class: u32, mesh: &Mesh) {
    let (source, destination) = (mesh.source, mesh.destination);
    text.add(&format!("  mesh {source}:{destination} class {class} "));
    text.add(&match mesh.progress {
        Progress::Made(made) => format!("steps {made}\n"),
        Progress::Unwinding(made) => {
            format!(
                "cancelled protected {} unprotected {made}\n",
                made + mesh.left
            )
        }
    });
}
