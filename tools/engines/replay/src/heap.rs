//! The heap: physical pages, the page map, spans, groups of spans on the same physical pages, and objects.
use crate::class::{class_of, CLASSES, MAX_LENGTH, PAGES, SIZE, SLOTS};
use crate::job::Bytes;
use crate::mesh::Mesh;
use crate::number_set::NumberSet;

const PAGE_BYTES: u32 = 4096;
const VIRTUAL_PAGES: usize = 65_536;

/// The value of an unmapped page in the page map, and of a page without a span.
pub const NONE: u16 = u16::MAX;

/// The bit of the page map that makes a virtual page read-only.
pub const READ_ONLY: u16 = 0x8000;

/// The greatest number of spans of a group.
pub const MAX_MEMBERS: usize = 8;

/// Why a call is refused. The numbers are those of job files.
#[derive(Clone, Copy, PartialEq, Eq)]
pub enum Refusal {
    Zero = 1,
    TooLarge,
    NoPages,
    NoAddresses,
    Empty,
    Freed,
    Outside,
    Stray,
    NoGroup,
    Same,
    Class,
    Busy,
    Overlap,
    Members,
    NoMesh,
    TooLate,
    NotEmpty,
}

/// A store's effect: whether it was made, or blocked by a read-only page.
#[derive(Clone, Copy, PartialEq, Eq)]
pub enum Store {
    Made,
    Blocked,
}

/// A reference to an object. It refers to nothing once the object is freed.
#[derive(Clone, Copy)]
pub struct Reference {
    pub serial: u32,
    pub address: u32,
}

/// The object in a slot. The slot is free if the length is 0.
#[derive(Clone, Copy)]
pub struct Record {
    pub serial: u32,
    pub len: u32,
}

/// A span: consecutive virtual pages that are cut into slots.
pub struct Span {
    class: u8,
    /// The number of the first virtual page.
    pub first: u32,
    group: u16,
    pub records: Box<[Record]>,
}

/// A group: the spans that are mapped to the same physical pages.
pub struct Group {
    is_alive: bool,
    pub is_in_mesh: bool,
    pub class: u8,
    member_count: u8,
    pub occupied_count: u16,
    members: [u16; MAX_MEMBERS],
    pub pages: [u16; 3],
    pub occupied: [u64; 4],
}

impl Group {
    /// The numbers of the group's spans.
    pub fn members(&self) -> &[u16] {
        &self.members[..usize::from(self.member_count)]
    }
}

/// The place of a live object: its span, its slot and its length.
struct Place {
    span: u16,
    slot: u32,
    len: u32,
}

pub struct Heap {
    page_count: u32,
    pub memory: Vec<u8>,
    /// The free physical pages, a bit each.
    free_pages: [u64; 64],
    free_count: u32,
    /// For each virtual page the physical page that it is mapped to, and `READ_ONLY`.
    pub map: Vec<u16>,
    /// For each virtual page the span that it belongs to.
    owner: Vec<u16>,
    pub spans: Vec<Span>,
    pub groups: Vec<Group>,
    /// For each class the groups in no mesh with a free slot.
    open: [NumberSet; CLASSES],
    /// For each class the groups in no mesh with a free slot and an occupied one.
    pub partial: [NumberSet; CLASSES],
    pub meshes: [Option<Mesh>; CLASSES],
    /// The number of meshes that have begun.
    pub begun: u32,
    next_page: u32,
    next_serial: u32,
    object_count: u32,
    object_bytes: u32,
    mapped_count: u32,
}

/// The counts of a report.
pub struct Report {
    pub objects: u32,
    pub bytes: u32,
    pub mapped: u32,
    pub taken: u32,
}

impl Heap {
    /// An empty heap with this number of physical pages, at most 4,096.
    pub fn new(page_count: u32) -> Heap {
        let mut free_pages = [0; 64];
        for page in 0..page_count as usize {
            free_pages[page >> 6] |= 1 << (page & 63);
        }
        Heap {
            page_count,
            memory: vec![0; (page_count * PAGE_BYTES) as usize],
            free_pages,
            free_count: page_count,
            map: vec![NONE; VIRTUAL_PAGES],
            owner: vec![NONE; VIRTUAL_PAGES],
            spans: Vec::new(),
            groups: Vec::new(),
            open: std::array::from_fn(|_| NumberSet::new()),
            partial: std::array::from_fn(|_| NumberSet::new()),
            meshes: [const { None }; CLASSES],
            begun: 0,
            next_page: 1,
            next_serial: 0,
            object_count: 0,
            object_bytes: 0,
            mapped_count: 0,
        }
    }

    pub fn report(&self) -> Report {
        Report {
            objects: self.object_count,
            bytes: self.object_bytes,
            mapped: self.mapped_count,
            taken: self.page_count - self.free_count,
        }
    }

    /// Takes the lowest free physical page. There is one.
    fn take_page(&mut self) -> u16 {
        let index = self
            .free_pages
            .iter()
            .position(|&word| word != 0)
            .expect("a free page");
        let word = &mut self.free_pages[index];
        let page = (index * 64) as u16 + word.trailing_zeros() as u16;
        *word &= *word - 1;
        self.free_count -= 1;
        page
    }

    pub fn free_page(&mut self, page: u16) {
        self.free_pages[usize::from(page >> 6)] |= 1 << (page & 63);
        self.free_count += 1;
    }

    /// The index in `memory` of the byte at an address.
    pub fn index_of(&self, address: u32) -> usize {
        let page = self.map[(address / PAGE_BYTES) as usize] & !READ_ONLY;
        usize::from(page) * PAGE_BYTES as usize + (address % PAGE_BYTES) as usize
    }

    /// The slot at an address: its span, its number, the offset in it, and its record.
    fn slot_at(&self, address: u32) -> Option<(u16, u32, u32, Record)> {
        let number = self.owner[(address / PAGE_BYTES) as usize];
        if number == NONE {
            return None;
        }
        let span = &self.spans[usize::from(number)];
        let off = address - span.first * PAGE_BYTES;
        let size = SIZE[usize::from(span.class)];
        let slot = off / size;
        Some((number, slot, off % size, span.records[slot as usize]))
    }

    fn place_of(&self, object: Reference) -> Result<Place, Refusal> {
        match self.slot_at(object.address) {
            Some((span, slot, _, Record { serial, len }))
                if len != 0 && serial == object.serial =>
            {
                Ok(Place { span, slot, len })
            }
            _ => Err(Refusal::Freed),
        }
    }

    /// The length of a live object.
    pub fn length(&self, object: Reference) -> Result<u32, Refusal> {
        Ok(self.place_of(object)?.len)
    }

    /// The address of `len` bytes of a live object from offset `off` on.
    fn range(&self, object: Reference, off: u32, len: u32) -> Result<u32, Refusal> {
        if off + len > self.length(object)? {
            return Err(Refusal::Outside);
        }
        Ok(object.address + off)
    }

    /// Puts a group into the sets that its state asks for.
    pub fn file_group(&mut self, number: u16) {
        let group = &self.groups[usize::from(number)];
        let class = usize::from(group.class);
        let has_room = u32::from(group.occupied_count) < SLOTS[class];
        let is_open = group.is_alive && !group.is_in_mesh && has_room;
        self.open[class].set(number, is_open);
        self.partial[class].set(number, is_open && group.occupied_count > 0);
    }

    /// Makes an object of zeros. The word chooses the slot.
    pub fn allocate(&mut self, len: u32, word: u64) -> Result<Reference, Refusal> {
        if len == 0 {
            return Err(Refusal::Zero);
        }
        if len > MAX_LENGTH {
            return Err(Refusal::TooLarge);
        }
        let class = class_of(len);
        let number = match self.open[class].least() {
            Some(number) => number,
            None => self.add_span(class)?,
        };
        let group = &mut self.groups[usize::from(number)];
        let free = SLOTS[class] - u32::from(group.occupied_count);
        let slot = free_slot(&group.occupied, (word % u64::from(free)) as u32);
        group.occupied[(slot >> 6) as usize] |= 1 << (slot & 63);
        group.occupied_count += 1;
        let span = group.members[0];
        if group.occupied_count == 1 || free == 1 {
            self.file_group(number);
        }

        let serial = self.next_serial;
        self.next_serial += 1;
        self.object_count += 1;
        self.object_bytes += len;
        let span = &mut self.spans[usize::from(span)];
        span.records[slot as usize] = Record { serial, len };
        let address = span.first * PAGE_BYTES + slot * SIZE[class];
        for (from, count) in pieces(address, len) {
            let index = self.index_of(from);
            self.memory[index..index + count as usize].fill(0);
        }
        Ok(Reference { serial, address })
    }

    /// Adds a span of a class, in a group of its own. Returns the group's number, which is the span's.
    fn add_span(&mut self, class: usize) -> Result<u16, Refusal> {
        let count = PAGES[class];
        if self.free_count < count {
            return Err(Refusal::NoPages);
        }
        if self.next_page + count > VIRTUAL_PAGES as u32 {
            return Err(Refusal::NoAddresses);
        }
        let number = self.spans.len() as u16;
        let mut pages = [0; 3];
        for (place, page) in pages[..count as usize].iter_mut().enumerate() {
            let virtual_page = self.next_page as usize + place;
            *page = self.take_page();
            self.map[virtual_page] = *page;
            self.owner[virtual_page] = number;
        }
        let free = Record { serial: 0, len: 0 };
        self.spans.push(Span {
            class: class as u8,
            first: self.next_page,
            group: number,
            records: vec![free; SLOTS[class] as usize].into_boxed_slice(),
        });
        let mut members = [0; MAX_MEMBERS];
        members[0] = number;
        self.groups.push(Group {
            is_alive: true,
            is_in_mesh: false,
            class: class as u8,
            member_count: 1,
            occupied_count: 0,
            members,
            pages,
            occupied: [0; 4],
        });
        self.next_page += count;
        self.mapped_count += count;
        Ok(number)
    }

    pub fn free(&mut self, object: Reference) -> Result<(), Refusal> {
        let Place { span, slot, len } = self.place_of(object)?;
        let span = &mut self.spans[usize::from(span)];
        span.records[slot as usize].len = 0;
        let number = span.group;
        let group = &mut self.groups[usize::from(number)];
        let was_full = u32::from(group.occupied_count) == SLOTS[usize::from(group.class)];
        group.occupied[(slot >> 6) as usize] &= !(1 << (slot & 63));
        group.occupied_count -= 1;
        if was_full || group.occupied_count == 0 {
            self.file_group(number);
        }
        self.object_count -= 1;
        self.object_bytes -= len;
        Ok(())
    }

    fn load(&self, address: u32, bytes: &mut [u8]) {
        let len = bytes.len() as u32;
        let mut rest = bytes;
        for (from, count) in pieces(address, len) {
            let index = self.index_of(from);
            let (piece, after) = rest.split_at_mut(count as usize);
            piece.copy_from_slice(&self.memory[index..index + count as usize]);
            rest = after;
        }
    }

    fn store(&mut self, address: u32, bytes: &[u8]) -> Store {
        let last = address + bytes.len() as u32 - 1;
        if self.is_read_only(address) || self.is_read_only(last) {
            return Store::Blocked;
        }
        let mut rest = bytes;
        for (from, count) in pieces(address, bytes.len() as u32) {
            let index = self.index_of(from);
            let (piece, after) = rest.split_at(count as usize);
            self.memory[index..index + count as usize].copy_from_slice(piece);
            rest = after;
        }
        Store::Made
    }

    fn is_read_only(&self, address: u32) -> bool {
        self.map[(address / PAGE_BYTES) as usize] & READ_ONLY != 0
    }

    /// `len` bytes of an object, at most 32.
    pub fn read(&self, object: Reference, off: u32, len: u32) -> Result<Bytes, Refusal> {
        let address = self.range(object, off, len)?;
        let mut bytes = Bytes::zeros(len as usize);
        self.load(address, bytes.as_mut_slice());
        Ok(bytes)
    }

    /// Stores bytes in an object.
    pub fn write(&mut self, object: Reference, off: u32, bytes: &[u8]) -> Result<Store, Refusal> {
        let address = self.range(object, off, bytes.len() as u32)?;
        Ok(self.store(address, bytes))
    }

    /// Copies `len` bytes of an object to another, at most 32.
    pub fn copy(
        &mut self,
        (to, to_off): (Reference, u32),
        (from, from_off): (Reference, u32),
        len: u32,
    ) -> Result<Store, Refusal> {
        self.length(to)?;
        self.length(from)?;
        let address = self.range(to, to_off, len)?;
        let bytes = self.read(from, from_off, len)?;
        Ok(self.store(address, bytes.as_slice()))
    }

    /// The byte of a live object at an address.
    pub fn peek(&self, address: u32) -> Result<u8, Refusal> {
        self.hit(address)?;
        Ok(self.memory[self.index_of(address)])
    }

    /// Stores a byte at an address of a live object.
    pub fn poke(&mut self, address: u32, byte: u8) -> Result<Store, Refusal> {
        self.hit(address)?;
        Ok(self.store(address, &[byte]))
    }

    /// Returns an error if no live object has the address.
    fn hit(&self, address: u32) -> Result<(), Refusal> {
        match self.slot_at(address) {
            Some((_, _, off, record)) if off < record.len => Ok(()),
            _ => Err(Refusal::Stray),
        }
    }

    pub fn group(&self, number: u16) -> Result<&Group, Refusal> {
        self.groups
            .get(usize::from(number))
            .filter(|group| group.is_alive)
            .ok_or(Refusal::NoGroup)
    }

    /// Copies the bytes of the object in a slot of the source to the destination's physical pages, if there is one.
    pub fn copy_slot(&mut self, source: u16, destination: u16, slot: u32) {
        let from = &self.groups[usize::from(source)];
        let to = &self.groups[usize::from(destination)];
        if from.occupied[(slot >> 6) as usize] >> (slot & 63) & 1 == 0 {
            return;
        }
        let len = from
            .members()
            .iter()
            .map(|&member| self.spans[usize::from(member)].records[slot as usize].len)
            .find(|&len| len != 0)
            .unwrap_or(0);
        let off = slot * SIZE[usize::from(from.class)];
        for (off, count) in pieces(off, len) {
            let page = (off / PAGE_BYTES) as usize;
            let within = (off % PAGE_BYTES) as usize;
            let index = usize::from(from.pages[page]) * PAGE_BYTES as usize + within;
            let target = usize::from(to.pages[page]) * PAGE_BYTES as usize + within;
            self.memory
                .copy_within(index..index + count as usize, target);
        }
    }

    /// Moves the spans and the occupied slots of the source to the destination.
    pub fn merge(&mut self, source: u16, destination: u16) {
        let from = &mut self.groups[usize::from(source)];
        from.is_alive = false;
        from.is_in_mesh = false;
        let (members, count) = (from.members, usize::from(from.member_count));
        let (occupied, occupied_count) = (from.occupied, from.occupied_count);
        let to = &mut self.groups[usize::from(destination)];
        let first = usize::from(to.member_count);
        to.members[first..first + count].copy_from_slice(&members[..count]);
        to.member_count += count as u8;
        to.occupied_count += occupied_count;
        for (word, more) in to.occupied.iter_mut().zip(occupied) {
            *word |= more;
        }
        for &member in &members[..count] {
            self.spans[usize::from(member)].group = destination;
        }
    }

    /// Unmaps the spans of a group without objects, and frees its physical pages. Returns the number of these pages.
    pub fn sweep(&mut self, number: u16) -> Result<u32, Refusal> {
        let group = self.group(number)?;
        if group.is_in_mesh {
            return Err(Refusal::Busy);
        }
        if group.occupied_count > 0 {
            return Err(Refusal::NotEmpty);
        }
        let count = PAGES[usize::from(group.class)];
        let (members, pages) = (group.members, group.pages);
        let members = &members[..usize::from(group.member_count)];
        for &member in members {
            let span = &mut self.spans[usize::from(member)];
            span.records = Box::new([]);
            let virtual_pages = span.first as usize..(span.first + count) as usize;
            self.map[virtual_pages.clone()].fill(NONE);
            self.owner[virtual_pages].fill(NONE);
        }
        self.mapped_count -= members.len() as u32 * count;
        for &page in &pages[..count as usize] {
            self.free_page(page);
        }
        self.groups[usize::from(number)].is_alive = false;
        self.file_group(number);
        Ok(count)
    }
}

/// The number of the free slot at a place among the free slots.
fn free_slot(occupied: &[u64; 4], place: u32) -> u32 {
    let mut left = place;
    for (index, &word) in occupied.iter().enumerate() {
        let mut free = !word;
        if left < free.count_ones() {
            for _ in 0..left {
                free &= free - 1;
            }
            return index as u32 * 64 + free.trailing_zeros();
        }
        left -= free.count_ones();
    }
    unreachable!("the place is below the number of free slots")
}

/// Cuts a range of bytes at the ends of pages: the first byte and the length of each piece.
fn pieces(first: u32, len: u32) -> impl Iterator<Item = (u32, u32)> {
    let end = first + len;
    let mut next = first;
    std::iter::from_fn(move || {
        if next == end {
            return None;
        }
        let piece = (next, (PAGE_BYTES - next % PAGE_BYTES).min(end - next));
        next += piece.1;
        Some(piece)
    })
}
