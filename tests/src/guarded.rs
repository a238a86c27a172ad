//! Buffers between guard bytes, so that a write outside them is seen.

/// An odd number, so that what lies between has no alignment.
const GUARD: usize = 61;

/// What surrounds bytes that are not all of one fill.
const FENCE: u8 = 0xd9;

/// A buffer that lies between guard bytes.
pub struct Guarded {
    bytes: Vec<u8>,
    length: usize,
    fill: u8,
}

impl Guarded {
    /// Makes room of that length, all of one fill, guards and all.
    pub fn new(length: usize, fill: u8) -> Self {
        let bytes = vec![fill; length + 2 * GUARD];
        Guarded {
            bytes,
            length,
            fill,
        }
    }

    /// Puts a copy of the bytes between guards.
    pub fn holding(bytes: &[u8]) -> Self {
        let mut guarded = Guarded::new(bytes.len(), FENCE);
        guarded.part().copy_from_slice(bytes);
        guarded
    }

    /// The part between the guards.
    pub fn part(&mut self) -> &mut [u8] {
        &mut self.bytes[GUARD..GUARD + self.length]
    }

    /// Whether the guards are as they were made.
    pub fn guards_hold(&self) -> bool {
        let after = &self.bytes[GUARD + self.length..];
        let mut guards = self.bytes[..GUARD].iter().chain(after);
        guards.all(|&byte| byte == self.fill)
    }

    /// Whether no byte of a buffer made of one fill has changed.
    pub fn untouched(&self) -> bool {
        self.bytes.iter().all(|&byte| byte == self.fill)
    }

    /// Takes the part out; the guards have to be as they were made.
    pub fn into_part(mut self, what: &str) -> Vec<u8> {
        assert!(self.guards_hold(), "{what}: bytes around it are written");
        self.bytes.truncate(GUARD + self.length);
        self.bytes.split_off(GUARD)
    }
}
