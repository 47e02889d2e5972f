//! The code of crates/sha3 in Rust, function by function, to compare the time: `bench/run` compiles it with -O.

/// The number of lanes in a state. Lane (x, y) stands at x + 5 y.
pub const LANES: usize = 25;

/// A state of 1600 bits.
pub type State = [u64; LANES];

/// The number of rounds of Keccak-f[1600].
const ROUNDS: usize = 24;

/// What iota adds to lane (0, 0) in each round.
const ROUND_CONSTANTS: [u64; ROUNDS] = [
    0x0000_0000_0000_0001,
    0x0000_0000_0000_8082,
    0x8000_0000_0000_808a,
    0x8000_0000_8000_8000,
    0x0000_0000_0000_808b,
    0x0000_0000_8000_0001,
    0x8000_0000_8000_8081,
    0x8000_0000_0000_8009,
    0x0000_0000_0000_008a,
    0x0000_0000_0000_0088,
    0x0000_0000_8000_8009,
    0x0000_0000_8000_000a,
    0x0000_0000_8000_808b,
    0x8000_0000_0000_008b,
    0x8000_0000_0000_8089,
    0x8000_0000_0000_8003,
    0x8000_0000_0000_8002,
    0x8000_0000_0000_0080,
    0x0000_0000_0000_800a,
    0x8000_0000_8000_000a,
    0x8000_0000_8000_8081,
    0x8000_0000_0000_8080,
    0x0000_0000_8000_0001,
    0x8000_0000_8000_8008,
];

/// Adds to each lane the parities of two columns beside its own.
fn theta(a: State) -> State {
    let [
        a0,
        a1,
        a2,
        a3,
        a4,
        a5,
        a6,
        a7,
        a8,
        a9,
        a10,
        a11,
        a12,
        a13,
        a14,
        a15,
        a16,
        a17,
        a18,
        a19,
        a20,
        a21,
        a22,
        a23,
        a24,
    ] = a;
    let c0 = a0 ^ a5 ^ a10 ^ a15 ^ a20;
    let c1 = a1 ^ a6 ^ a11 ^ a16 ^ a21;
    let c2 = a2 ^ a7 ^ a12 ^ a17 ^ a22;
    let c3 = a3 ^ a8 ^ a13 ^ a18 ^ a23;
    let c4 = a4 ^ a9 ^ a14 ^ a19 ^ a24;
    let d0 = c4 ^ c1.rotate_left(1);
    let d1 = c0 ^ c2.rotate_left(1);
    let d2 = c1 ^ c3.rotate_left(1);
    let d3 = c2 ^ c4.rotate_left(1);
    let d4 = c3 ^ c0.rotate_left(1);
    [
        a0 ^ d0,
        a1 ^ d1,
        a2 ^ d2,
        a3 ^ d3,
        a4 ^ d4,
        a5 ^ d0,
        a6 ^ d1,
        a7 ^ d2,
        a8 ^ d3,
        a9 ^ d4,
        a10 ^ d0,
        a11 ^ d1,
        a12 ^ d2,
        a13 ^ d3,
        a14 ^ d4,
        a15 ^ d0,
        a16 ^ d1,
        a17 ^ d2,
        a18 ^ d3,
        a19 ^ d4,
        a20 ^ d0,
        a21 ^ d1,
        a22 ^ d2,
        a23 ^ d3,
        a24 ^ d4,
    ]
}

/// Rotates each lane by its offset.
fn rho(a: State) -> State {
    let [
        a0,
        a1,
        a2,
        a3,
        a4,
        a5,
        a6,
        a7,
        a8,
        a9,
        a10,
        a11,
        a12,
        a13,
        a14,
        a15,
        a16,
        a17,
        a18,
        a19,
        a20,
        a21,
        a22,
        a23,
        a24,
    ] = a;
    [
        a0.rotate_left(0),
        a1.rotate_left(1),
        a2.rotate_left(62),
        a3.rotate_left(28),
        a4.rotate_left(27),
        a5.rotate_left(36),
        a6.rotate_left(44),
        a7.rotate_left(6),
        a8.rotate_left(55),
        a9.rotate_left(20),
        a10.rotate_left(3),
        a11.rotate_left(10),
        a12.rotate_left(43),
        a13.rotate_left(25),
        a14.rotate_left(39),
        a15.rotate_left(41),
        a16.rotate_left(45),
        a17.rotate_left(15),
        a18.rotate_left(21),
        a19.rotate_left(8),
        a20.rotate_left(18),
        a21.rotate_left(2),
        a22.rotate_left(61),
        a23.rotate_left(56),
        a24.rotate_left(14),
    ]
}

/// Moves each lane to its new place.
fn pi(a: State) -> State {
    let [
        a0,
        a1,
        a2,
        a3,
        a4,
        a5,
        a6,
        a7,
        a8,
        a9,
        a10,
        a11,
        a12,
        a13,
        a14,
        a15,
        a16,
        a17,
        a18,
        a19,
        a20,
        a21,
        a22,
        a23,
        a24,
    ] = a;
    [
        a0, a6, a12, a18, a24, a3, a9, a10, a16, a22, a1, a7, a13, a19, a20, a4, a5, a11, a17, a23,
        a2, a8, a14, a15, a21,
    ]
}

/// Mixes each lane with the two to its right: the one step that is not linear.
fn chi(a: State) -> State {
    let [
        a0,
        a1,
        a2,
        a3,
        a4,
        a5,
        a6,
        a7,
        a8,
        a9,
        a10,
        a11,
        a12,
        a13,
        a14,
        a15,
        a16,
        a17,
        a18,
        a19,
        a20,
        a21,
        a22,
        a23,
        a24,
    ] = a;
    [
        a0 ^ (!a1 & a2),
        a1 ^ (!a2 & a3),
        a2 ^ (!a3 & a4),
        a3 ^ (!a4 & a0),
        a4 ^ (!a0 & a1),
        a5 ^ (!a6 & a7),
        a6 ^ (!a7 & a8),
        a7 ^ (!a8 & a9),
        a8 ^ (!a9 & a5),
        a9 ^ (!a5 & a6),
        a10 ^ (!a11 & a12),
        a11 ^ (!a12 & a13),
        a12 ^ (!a13 & a14),
        a13 ^ (!a14 & a10),
        a14 ^ (!a10 & a11),
        a15 ^ (!a16 & a17),
        a16 ^ (!a17 & a18),
        a17 ^ (!a18 & a19),
        a18 ^ (!a19 & a15),
        a19 ^ (!a15 & a16),
        a20 ^ (!a21 & a22),
        a21 ^ (!a22 & a23),
        a22 ^ (!a23 & a24),
        a23 ^ (!a24 & a20),
        a24 ^ (!a20 & a21),
    ]
}

/// Adds the round constant.
fn iota(a: State, constant: u64) -> State {
    let mut b = a;
    b[0] ^= constant;
    b
}

/// One round.
fn round(a: State, constant: u64) -> State {
    iota(chi(pi(rho(theta(a)))), constant)
}

/// All 24 rounds.
pub fn permute(state: &mut State) {
    let mut a = *state;
    for constant in ROUND_CONSTANTS {
        let next = round(a, constant);
        a = next;
    }
    *state = a;
}

/// The bytes of a lane.
const LANE: usize = 8;

/// What follows each message of SHA3: the bits 01, and the first 1 of the padding.
pub const SHA3_SUFFIX: u8 = 0x06;

/// The last bit of the padding, the highest of a block's last byte.
const LAST_BIT: u8 = 0x80;

/// Adds a byte to byte `at` of the state's string.
fn add_byte(state: &mut State, at: usize, byte: u8) {
    state[at / LANE] ^= u64::from(byte) << (8 * (at % LANE));
}

/// Adds bytes to the state's string from byte `at` on, one by one.
fn add_singly(state: &mut State, at: usize, bytes: &[u8]) {
    for (i, byte) in bytes.iter().enumerate() {
        add_byte(state, at + i, *byte);
    }
}

/// Adds whole lanes to the state's string, from lane `lane` on: eight bytes at once.
fn add_lanes(state: &mut State, lane: usize, bytes: &[u8]) {
    let (words, _) = bytes.as_chunks::<LANE>();
    for (i, word) in words.iter().enumerate() {
        state[lane + i] ^= u64::from_le_bytes(*word);
    }
}

/// Adds bytes to the state's string from byte `at` on: whole lanes at once, and what stands before and after them singly.
fn add_bytes(state: &mut State, at: usize, bytes: &[u8]) {
    let to_lane = (LANE - at % LANE) % LANE;
    let (head, rest) = bytes.split_at(to_lane.min(bytes.len()));
    let (lanes, tail) = rest.split_at(rest.len() - rest.len() % LANE);
    let end = at + head.len();
    add_singly(state, at, head);
    add_lanes(state, end / LANE, lanes);
    add_singly(state, end + lanes.len(), tail);
}

/// Byte `at` of the state's string.
fn byte_of(state: &State, at: usize) -> u8 {
    ((state[at / LANE] >> (8 * (at % LANE))) & 0xff) as u8
}

/// A sponge that was fed some bytes: the state, with the bytes of the current block added, and how many these are.
pub struct Sponge {
    state: State,
    at: usize,
    rate: usize,
    suffix: u8,
}

impl Sponge {
    /// A sponge that was fed nothing. The rate is the length of a block in bytes, and the suffix what follows each message.
    pub fn new(rate: usize, suffix: u8) -> Sponge {
        Sponge {
            state: [0; LANES],
            at: 0,
            rate,
            suffix,
        }
    }

    /// Feeds bytes for which the current block has room, and permutes the state once the block is full.
    fn fill(&mut self, bytes: &[u8]) {
        add_bytes(&mut self.state, self.at, bytes);
        let at = self.at + bytes.len();
        if at == self.rate {
            permute(&mut self.state);
            self.at = 0;
        } else {
            self.at = at;
        }
    }

    /// Feeds more bytes.
    pub fn update(&mut self, bytes: &[u8]) {
        let room = self.rate - self.at;
        let (head, rest) = bytes.split_at(room.min(bytes.len()));
        self.fill(head);
        for block in rest.chunks(self.rate) {
            self.fill(block);
        }
    }

    /// Ends the message: its suffix and the padding fill the block.
    fn close(&mut self) {
        add_byte(&mut self.state, self.at, self.suffix);
        add_byte(&mut self.state, self.rate - 1, LAST_BIT);
    }

    /// Fills `out` with the bytes that the state gives once it is permuted.
    fn squeeze(&mut self, out: &mut [u8]) {
        let mut at = self.rate;
        for byte in out.iter_mut() {
            if at == self.rate {
                permute(&mut self.state);
                at = 0;
            }
            *byte = byte_of(&self.state, at);
            at += 1;
        }
    }

    /// Ends the message, and fills `out` with the first bytes that the sponge gives for it.
    pub fn finish(mut self, out: &mut [u8]) {
        self.close();
        self.squeeze(out);
    }
}

/// A message that comes in pieces, and whose digest has `LENGTH` bytes. Twice as many bytes of the state are no part of a block.
pub struct Hasher<const LENGTH: usize> {
    sponge: Sponge,
}

impl<const LENGTH: usize> Hasher<LENGTH> {
    /// A hasher that was fed nothing.
    fn empty() -> Self {
        Hasher {
            sponge: Sponge::new(LANES * LANE - 2 * LENGTH, SHA3_SUFFIX),
        }
    }

    /// Feeds more bytes.
    pub fn update(&mut self, bytes: &[u8]) {
        self.sponge.update(bytes);
    }

    /// The digest of what was fed.
    pub fn finish(self) -> [u8; LENGTH] {
        let Hasher { sponge } = self;
        let mut digest = [0; LENGTH];
        sponge.finish(&mut digest);
        digest
    }
}

/// The digest of a whole message.
fn digest_of<const LENGTH: usize>(bytes: &[u8]) -> [u8; LENGTH] {
    let mut hasher = Hasher::empty();
    hasher.update(bytes);
    hasher.finish()
}

/// SHA3-256 of `length` bytes at `bytes`, for C.
///
/// # Safety
/// `bytes` points to `length` bytes, and `out` to 32.
#[unsafe(no_mangle)]
pub unsafe extern "C" fn rust_sha3_256(bytes: *const u8, length: usize, out: *mut [u8; 32]) {
    unsafe { *out = digest_of(core::slice::from_raw_parts(bytes, length)) }
}

/// SHA3-512 of `length` bytes at `bytes`, for C.
///
/// # Safety
/// `bytes` points to `length` bytes, and `out` to 64.
#[unsafe(no_mangle)]
pub unsafe extern "C" fn rust_sha3_512(bytes: *const u8, length: usize, out: *mut [u8; 64]) {
    unsafe { *out = digest_of(core::slice::from_raw_parts(bytes, length)) }
}
