//! Buffers as a caller lends them, between guard bytes that no call may alter.

use reference::random::Random;

const GUARD: usize = 64;
const GUARD_BYTE: u8 = 0xA5;

/// One lent buffer. The space is kept from call to call.
#[derive(Default)]
pub struct Buffer {
    space: Vec<u8>,
    front: usize,
    length: usize,
    null: bool,
}

impl Buffer {
    /// Lends `content` at an address that is not always aligned. An empty buffer is lent as a null pointer every other time.
    pub fn lend(&mut self, content: &[u8], random: &mut Random) {
        self.front = random.between(GUARD / 2, GUARD);
        self.length = content.len();
        self.null = content.is_empty() && random.once_in(2);
        self.space.clear();
        self.space.resize(self.front, GUARD_BYTE);
        self.space.extend(content);
        self.space.resize(self.front + self.length + GUARD, GUARD_BYTE);
    }

    pub fn pointer(&mut self) -> *mut u8 {
        if self.null {
            return std::ptr::null_mut();
        }
        self.space[self.front..].as_mut_ptr()
    }

    pub fn len(&self) -> usize {
        self.length
    }

    pub fn content(&self) -> &[u8] {
        &self.space[self.front..self.front + self.length]
    }

    pub fn guards_hold(&self) -> bool {
        let after = self.front + self.length;
        self.space[..self.front].iter().chain(&self.space[after..]).all(|&byte| byte == GUARD_BYTE)
    }
}

/// Random bytes, drawn once, of which each call's working area and output get a part.
pub struct Noise {
    bytes: Vec<u8>,
}

impl Noise {
    /// More than the longest buffer lent, so that the parts differ from call to call.
    const BYTES: usize = 150_000;

    pub fn draw(random: &mut Random) -> Noise {
        Noise { bytes: (0..Noise::BYTES).map(|_| random.byte()).collect() }
    }

    pub fn part(&self, length: usize, random: &mut Random) -> &[u8] {
        let start = random.below(Noise::BYTES - length + 1);
        &self.bytes[start..start + length]
    }
}
