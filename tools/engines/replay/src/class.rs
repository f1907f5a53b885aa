//! The size classes. A class is a number from 0 to 9.

/// The number of size classes.
pub const CLASSES: usize = 10;

/// The bytes of a slot of each class.
pub const SIZE: [u32; CLASSES] = [16, 32, 64, 128, 256, 384, 512, 1024, 1536, 2048];

/// The pages of a span of each class.
pub const PAGES: [u32; CLASSES] = [1, 1, 1, 1, 1, 3, 1, 1, 3, 1];

/// The slots of a span of each class.
pub const SLOTS: [u32; CLASSES] = [256, 128, 64, 32, 16, 32, 8, 4, 8, 2];

/// The greatest length of an object.
pub const MAX_LENGTH: u32 = SIZE[CLASSES - 1];

/// The class of each length, rounded up to a multiple of 16 and divided by 16.
const OF_UNITS: [u8; 129] = {
    let mut classes = [0; 129];
    let mut units = 0;
    while units < classes.len() {
        let mut class = 0;
        while SIZE[class] < 16 * units as u32 {
            class += 1;
        }
        classes[units] = class as u8;
        units += 1;
    }
    classes
};

/// The least class whose slots have room for `length` bytes. The length is at most `MAX_LENGTH`.
pub fn class_of(length: u32) -> usize {
    usize::from(OF_UNITS[length.div_ceil(16) as usize])
}

/// The class with slots of `size` bytes.
pub fn class_of_size(size: u64) -> Option<usize> {
    SIZE.iter()
        .position(|&of_class| u64::from(of_class) == size)
}
