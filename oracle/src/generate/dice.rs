//! Numbers that look random and follow from a journal's number (splitmix64).

#[derive(Clone, Debug)]
pub struct Dice(u64);

impl Dice {
    /// The dice of a journal: its number, and a second one that keeps the profiles apart.
    pub fn new(number: u64, kind: u64) -> Dice {
        let mut first = Dice(number);
        Dice(first.roll().wrapping_add(kind.wrapping_mul(0xd134_2543_de82_ef95)))
    }

    /// Any number.
    pub fn roll(&mut self) -> u64 {
        self.0 = self.0.wrapping_add(0x9e37_79b9_7f4a_7c15);
        let mut mixed = self.0;
        mixed = (mixed ^ (mixed >> 30)).wrapping_mul(0xbf58_476d_1ce4_e5b9);
        mixed = (mixed ^ (mixed >> 27)).wrapping_mul(0x94d0_49bb_1331_11eb);
        mixed ^ (mixed >> 31)
    }

    /// A number below a limit that is not 0.
    pub fn below(&mut self, limit: u64) -> u64 {
        self.roll() % limit
    }

    /// A number from the low to the high one, both included.
    pub fn between(&mut self, low: u64, high: u64) -> u64 {
        low + self.below(high - low + 1)
    }

    /// Yes so many times out of the whole.
    pub fn chance(&mut self, times: u64, whole: u64) -> bool {
        self.below(whole) < times
    }

    /// One of a list that is not empty.
    pub fn pick<T: Copy>(&mut self, list: &[T]) -> T {
        list[self.below(list.len() as u64) as usize]
    }

    /// Puts a list in any order.
    pub fn shuffle<T>(&mut self, list: &mut [T]) {
        for place in (1..list.len()).rev() {
            list.swap(place, self.below(place as u64 + 1) as usize);
        }
    }
}
