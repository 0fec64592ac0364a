//! Rooms that show whatever was written into them: dirty before the call, longer than asked for,
//! and with guards on both sides of what is lent.

use answers::random::Random;

/// What stands before and behind a lent room, in elements.
const GUARD: usize = 8;

/// One number in so many is not zero where few are.
const FEW: u64 = 61;

/// A number of a room, told from others by its bits.
pub trait Number: Copy {
    /// The number of some bits.
    fn of_bits(bits: u64) -> Self;
    /// The bits of the number.
    fn bits(self) -> u64;
}

impl Number for u8 {
    fn of_bits(bits: u64) -> Self {
        (bits >> 56) as u8
    }
    fn bits(self) -> u64 {
        self.into()
    }
}

impl Number for u32 {
    fn of_bits(bits: u64) -> Self {
        (bits >> 32) as u32
    }
    fn bits(self) -> u64 {
        self.into()
    }
}

impl Number for u64 {
    fn of_bits(bits: u64) -> Self {
        bits
    }
    fn bits(self) -> u64 {
        self
    }
}

impl Number for f64 {
    fn of_bits(bits: u64) -> Self {
        f64::from_bits(bits)
    }
    fn bits(self) -> u64 {
        self.to_bits()
    }
}

/// What stands in a room before the call.
#[derive(Clone, Copy, Debug)]
pub enum Dirt {
    /// Numbers that no call writes: each is different and has its highest bit set.
    Marked(u64),
    /// Numbers as a call before might have left them: small whole ones, in the high bytes too.
    Likely(u64),
    /// Zeros with a number here and there, as a host might have used a cleared room.
    Few(u64),
    /// Zeros, as in a room that is lent for the first time.
    Zeros,
    /// Bits that are all 1.
    Ones,
}

impl Dirt {
    /// Some dirt, most often the marked one.
    pub fn some(random: &mut Random) -> Self {
        let salt = random.bits();
        match random.below(8) {
            0 => Dirt::Zeros,
            1 => Dirt::Ones,
            2 => Dirt::Few(salt),
            3 | 4 => Dirt::Likely(salt),
            _ => Dirt::Marked(salt),
        }
    }

    /// The bits at a place.
    fn at(self, place: usize) -> u64 {
        let mixed = |salt: u64| {
            let mixed = (salt ^ place as u64).wrapping_mul(0x9e37_79b9_7f4a_7c15);
            mixed ^ (mixed >> 29)
        };
        match self {
            Dirt::Marked(salt) => mixed(salt) | 1 << 63,
            Dirt::Likely(salt) => (mixed(salt) & 0x0107).wrapping_mul(0x0100_0001_0000_0001),
            Dirt::Few(salt) if mixed(salt) % FEW == 0 => mixed(salt),
            Dirt::Few(_) | Dirt::Zeros => 0,
            Dirt::Ones => u64::MAX,
        }
    }
}

/// How much longer than it must be a room is lent.
pub fn more(random: &mut Random) -> usize {
    random.pick(&[0, 0, 1, 5])
}

/// A room with guards. Its dirt can be told again at any time, so nothing is kept beside it.
pub struct Room<T> {
    numbers: Vec<T>,
    dirt: Dirt,
}

impl<T: Number> Room<T> {
    /// A dirty room of a length.
    pub fn new(dirt: Dirt, length: usize) -> Self {
        let numbers = (0..length + 2 * GUARD).map(|place| T::of_bits(dirt.at(place))).collect();
        Room { numbers, dirt }
    }

    /// The part that is lent to the call.
    pub fn lent(&mut self) -> &mut [T] {
        let end = self.numbers.len() - GUARD;
        &mut self.numbers[GUARD..end]
    }

    /// The room with its guards, which no call may reach.
    pub fn with_guards(&mut self) -> &mut [T] {
        &mut self.numbers
    }

    /// Tests that the room has, from its beginning, what was to be written, and is otherwise as
    /// before. The error is a sentence about the first number that is not so.
    pub fn check(&self, name: &str, written: impl Fn(usize) -> Option<T>) -> Result<(), String> {
        for (place, number) in self.numbers.iter().enumerate() {
            let before = T::of_bits(self.dirt.at(place));
            let wanted = place.checked_sub(GUARD).and_then(&written);
            let found = number.bits();
            if found != wanted.unwrap_or(before).bits() {
                return Err(self.sentence(name, place, found, wanted, before.bits()));
            }
        }
        Ok(())
    }

    fn sentence(
        &self,
        name: &str,
        place: usize,
        found: u64,
        wanted: Option<T>,
        before: u64,
    ) -> String {
        let length = self.numbers.len() - 2 * GUARD;
        let place = place as i64 - GUARD as i64;
        let lent = (0..length as i64).contains(&place);
        let beyond = if lent { "" } else { ", which was not lent," };
        let at = format!("{name}[{place}]{beyond} is {found:#x}");
        match wanted {
            Some(number) => format!("{at}, not {:#x}", number.bits()),
            None => format!("{at}, not {before:#x} as before the call"),
        }
    }

    /// Tests that the room is as before.
    pub fn untouched(&self, name: &str) -> Result<(), String> {
        self.check(name, |_| None)
    }

    /// Tests that the room begins with the list and is otherwise as before.
    pub fn begins_with(&self, name: &str, list: &[T]) -> Result<(), String> {
        self.check(name, |place| list.get(place).copied())
    }

    /// Tests that the room begins with so many zeros and is otherwise as before.
    pub fn cleared(&self, name: &str, length: usize) -> Result<(), String> {
        self.check(name, |place| (place < length).then(|| T::of_bits(0)))
    }
}
