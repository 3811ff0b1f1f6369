//! A proved read store for race timing. Chip reads carry a time in microseconds; those times are the keys. The store keeps them sorted, cuts them
//! into segments with a straight line through each, and looks only near a line's guess; new reads wait in a small buffer by their segment.
//!
//! The calls are proved (see the repository's `docs/PROMISES.md`); this crate is the thin part that is not: it owns the slices and turns numbers
//! into Rust's types.
//!
//! ```
//! use readstore::{Place, Store};
//!
//! // Five riders off the ramp, in microseconds.
//! let mut store = Store::load(&[10_000_000, 40_000_000, 70_000_000, 100_000_000, 130_000_000], 1, 2)?;
//! assert_eq!(store.get(70_000_000)?, Some(Place::Run { position: 2 }));
//!
//! // One tied a shoe: his read turns up late.
//! store.insert(81_400_000)?;
//! assert!(store.contains(81_400_000)?);
//! assert_eq!(store.range(70_000_000..=100_000_000)?, [70_000_000, 81_400_000, 100_000_000]);
//!
//! // A read that is there already is refused, and nothing changes.
//! let refusal = store.insert(81_400_000).unwrap_err();
//! assert_eq!((refusal.number, refusal.place), (5, 0));
//! store.check()?;
//! # Ok::<(), readstore::Refusal>(())
//! ```

use std::{error, fmt, ops::RangeInclusive};

extern "C" {
    fn readstore_build(keys: *const u64, keys_len: usize, table: *mut u64, table_len: usize, buffers: *const u64, buffers_len: usize, e: u64, b: u64, n: u64, answer: *mut u64);
    fn readstore_check(keys: *const u64, keys_len: usize, table: *const u64, table_len: usize, buffers: *const u64, buffers_len: usize, e: u64, b: u64, n: u64, s: u64, answer: *mut u64);
    fn readstore_lookup(keys: *const u64, keys_len: usize, table: *const u64, table_len: usize, buffers: *const u64, buffers_len: usize, e: u64, b: u64, n: u64, s: u64, k: u64, answer: *mut u64);
    fn readstore_range(keys: *const u64, keys_len: usize, table: *const u64, table_len: usize, buffers: *const u64, buffers_len: usize, e: u64, b: u64, n: u64, s: u64, low: u64, high: u64, out: *mut u64, out_len: usize, answer: *mut u64);
    fn readstore_insert(keys: *mut u64, keys_len: usize, table: *mut u64, table_len: usize, buffers: *mut u64, buffers_len: usize, e: u64, b: u64, n: u64, s: u64, k: u64, answer: *mut u64);
    fn readstore_image_write(keys: *const u64, keys_len: usize, table: *const u64, table_len: usize, buffers: *const u64, buffers_len: usize, e: u64, b: u64, n: u64, s: u64, out: *mut u8, out_len: usize, answer: *mut u64);
    fn readstore_image_read(image: *const u8, image_len: usize, keys: *mut u64, keys_len: usize, table: *mut u64, table_len: usize, buffers: *mut u64, buffers_len: usize, answer: *mut u64);
}

/// Why a call was refused: the number of the refusal and its place (0 unless the number has one). A refusal changes nothing.
#[derive(Clone, Copy, Debug, PartialEq, Eq)]
pub struct Refusal {
    /// 1 to 11.
    pub number: u64,
    /// A position, a segment or a byte offset, as the number says; else 0.
    pub place: u64,
}

impl fmt::Display for Refusal {
    fn fmt(&self, f: &mut fmt::Formatter<'_>) -> fmt::Result {
        let at = self.place;
        match self.number {
            1 => write!(f, "e, B, n or s is outside its limits, or a slice is too short for them"),
            2 => write!(f, "a key given is not below 2^44 (position {at})"),
            3 => write!(f, "the key at position {at} is not above the one before"),
            4 => write!(f, "low is above high"),
            5 => write!(f, "the key is there already"),
            6 => write!(f, "no room for the keys"),
            7 => write!(f, "no room for the segments"),
            8 => write!(f, "the result is longer than the out slice"),
            9 => write!(f, "the store is wrong at segment {at}"),
            10 => write!(f, "the image is malformed: the record at byte {at}"),
            11 => write!(f, "line {at} is malformed"),
            number => write!(f, "refusal {number} at {at}"),
        }
    }
}

impl error::Error for Refusal {}

/// Where a read was found.
#[derive(Clone, Copy, Debug, PartialEq, Eq)]
pub enum Place {
    /// In a run, at this position of the keys.
    Run { position: usize },
    /// In the buffer of a segment, at this slot.
    Buffer { segment: usize, slot: usize },
}

/// What an insert did.
#[derive(Clone, Copy, Debug, PartialEq, Eq)]
pub enum Inserted {
    /// The read waits in the buffer of a segment, at this slot.
    Buffered { segment: usize, slot: usize },
    /// The segment was merged with its buffer and cut again into this many.
    Merged { segment: usize, pieces: usize },
}

/// The most keys in runs, and the most segments, that a store may have.
pub const KEYS_MOST: usize = 32_768;
/// See [`KEYS_MOST`].
pub const SEGMENTS_MOST: usize = 8_192;

/// A store that owns its slices.
#[derive(Clone, Debug)]
pub struct Store {
    e: u64,
    b: u64,
    n: u64,
    s: u64,
    keys: Vec<u64>,
    table: Vec<u64>,
    buffers: Vec<u64>,
}

fn told(answer: [u64; 8]) -> Result<[u64; 8], Refusal> {
    match answer[0] {
        0 => Ok(answer),
        number => Err(Refusal { number, place: answer[1] }),
    }
}

impl Store {
    /// A store of these keys, strictly rising, cut with the bound `e`; buffers of `b` slots; room for as many keys and segments as a store may have.
    pub fn load(keys: &[u64], e: u64, b: u64) -> Result<Store, Refusal> {
        Store::load_with_room(keys, e, b, KEYS_MOST, SEGMENTS_MOST)
    }

    /// The same with room for `key_room` keys in runs and `segment_room` segments.
    pub fn load_with_room(keys: &[u64], e: u64, b: u64, key_room: usize, segment_room: usize) -> Result<Store, Refusal> {
        let mut cells = keys.to_vec();
        cells.resize(key_room.max(keys.len()), 0);
        // a buffer size that no store may have is refused by the call: it needs no slots
        let slots = if b <= 64 { segment_room * b as usize } else { 0 };
        let mut store = Store { e, b, n: keys.len() as u64, s: 0, keys: cells, table: vec![0; 5 * segment_room], buffers: vec![0; slots] };
        let mut answer = [0u64; 8];
        // SAFETY: each pointer goes with the length of the slice that it is of, and the answer has eight numbers.
        unsafe {
            readstore_build(store.keys.as_ptr(), store.keys.len(), store.table.as_mut_ptr(), store.table.len(), store.buffers.as_ptr(), store.buffers.len(), e, b, store.n, answer.as_mut_ptr());
        }
        store.s = told(answer)?[3];
        Ok(store)
    }

    /// Whether the store keeps every rule: what every other call counts on. The refusal names the lowest segment that breaks one.
    pub fn check(&self) -> Result<(), Refusal> {
        let mut answer = [0u64; 8];
        // SAFETY: as in `load_with_room`.
        unsafe {
            readstore_check(self.keys.as_ptr(), self.keys.len(), self.table.as_ptr(), self.table.len(), self.buffers.as_ptr(), self.buffers.len(), self.e, self.b, self.n, self.s, answer.as_mut_ptr());
        }
        told(answer).map(|_| ())
    }

    /// Where a read stands, if it is there.
    pub fn get(&self, k: u64) -> Result<Option<Place>, Refusal> {
        let mut answer = [0u64; 8];
        // SAFETY: as in `load_with_room`.
        unsafe {
            readstore_lookup(self.keys.as_ptr(), self.keys.len(), self.table.as_ptr(), self.table.len(), self.buffers.as_ptr(), self.buffers.len(), self.e, self.b, self.n, self.s, k, answer.as_mut_ptr());
        }
        let answer = told(answer)?;
        Ok(match answer[2] {
            1 => Some(Place::Run { position: answer[3] as usize }),
            2 => Some(Place::Buffer { segment: answer[3] as usize, slot: answer[4] as usize }),
            _ => None,
        })
    }

    /// Whether a read is there.
    pub fn contains(&self, k: u64) -> Result<bool, Refusal> {
        self.get(k).map(|place| place.is_some())
    }

    /// The reads from low to high, both ends among them, in order.
    pub fn range(&self, keys: RangeInclusive<u64>) -> Result<Vec<u64>, Refusal> {
        let mut out = vec![0; self.len()];
        let mut answer = [0u64; 8];
        // SAFETY: as in `load_with_room`.
        unsafe {
            readstore_range(self.keys.as_ptr(), self.keys.len(), self.table.as_ptr(), self.table.len(), self.buffers.as_ptr(), self.buffers.len(), self.e, self.b, self.n, self.s, *keys.start(), *keys.end(), out.as_mut_ptr(), out.len(), answer.as_mut_ptr());
        }
        out.truncate(told(answer)?[3] as usize);
        Ok(out)
    }

    /// Takes a read in.
    pub fn insert(&mut self, k: u64) -> Result<Inserted, Refusal> {
        let mut answer = [0u64; 8];
        // SAFETY: as in `load_with_room`; the three slices are the store's own and do not overlap.
        unsafe {
            readstore_insert(self.keys.as_mut_ptr(), self.keys.len(), self.table.as_mut_ptr(), self.table.len(), self.buffers.as_mut_ptr(), self.buffers.len(), self.e, self.b, self.n, self.s, k, answer.as_mut_ptr());
        }
        let answer = told(answer)?;
        Ok(match answer[2] {
            1 => Inserted::Buffered { segment: answer[3] as usize, slot: answer[4] as usize },
            _ => {
                (self.n, self.s) = (answer[5], answer[6]);
                Inserted::Merged { segment: answer[3] as usize, pieces: answer[4] as usize }
            }
        })
    }

    /// The stored form.
    ///
    /// ```
    /// # use readstore::Store;
    /// let store = Store::load(&[10, 20, 30, 100, 110, 120], 1, 2)?;
    /// let bytes = store.to_bytes()?;
    /// assert_eq!(bytes.len(), 88);
    /// let again = Store::from_bytes(&bytes)?;
    /// assert_eq!(again.to_bytes()?, bytes);
    /// # Ok::<(), readstore::Refusal>(())
    /// ```
    pub fn to_bytes(&self) -> Result<Vec<u8>, Refusal> {
        // head, a record of 7 for each key and each slot, of 18 for each segment, end
        let mut out = vec![0u8; 10 + 7 * (self.n as usize + (self.s * self.b) as usize) + 18 * self.s as usize];
        let mut answer = [0u64; 8];
        // SAFETY: as in `load_with_room`.
        unsafe {
            readstore_image_write(self.keys.as_ptr(), self.keys.len(), self.table.as_ptr(), self.table.len(), self.buffers.as_ptr(), self.buffers.len(), self.e, self.b, self.n, self.s, out.as_mut_ptr(), out.len(), answer.as_mut_ptr());
        }
        out.truncate(told(answer)?[3] as usize);
        Ok(out)
    }

    /// A store read from its stored form. Whether it keeps the rules is [`Store::check`]'s to say.
    pub fn from_bytes(image: &[u8]) -> Result<Store, Refusal> {
        let mut store = Store { e: 0, b: 0, n: 0, s: 0, keys: vec![0; KEYS_MOST], table: vec![0; 5 * SEGMENTS_MOST], buffers: vec![0; 64 * SEGMENTS_MOST] };
        let mut answer = [0u64; 8];
        // SAFETY: as in `load_with_room`; the four slices do not overlap.
        unsafe {
            readstore_image_read(image.as_ptr(), image.len(), store.keys.as_mut_ptr(), store.keys.len(), store.table.as_mut_ptr(), store.table.len(), store.buffers.as_mut_ptr(), store.buffers.len(), answer.as_mut_ptr());
        }
        let answer = told(answer)?;
        (store.e, store.b, store.n, store.s) = (answer[3], answer[4], answer[5], answer[6]);
        Ok(store)
    }

    /// How many reads there are, in runs and in buffers.
    pub fn len(&self) -> usize {
        (self.n + (0..self.segments()).map(|i| self.table[5 * i + 4]).sum::<u64>()) as usize
    }

    /// A store has at least one read.
    pub fn is_empty(&self) -> bool {
        self.len() == 0
    }

    /// How many segments there are.
    pub fn segments(&self) -> usize {
        self.s as usize
    }

    /// The error bound.
    pub fn bound(&self) -> u64 {
        self.e
    }

    /// The slots of a buffer.
    pub fn buffer_size(&self) -> u64 {
        self.b
    }
}
