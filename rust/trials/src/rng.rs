//! Random numbers from a seed (splitmix64).

/// A reproducible source of random numbers.
pub struct Rng(u64);

impl Rng {
    /// The source for file `index` under `seed`.
    pub fn new(seed: u64, index: u64) -> Rng {
        let mut rng = Rng(seed);
        let start = rng
            .number()
            .wrapping_add(index.wrapping_mul(0xd1342543de82ef95));
        Rng(start)
    }

    pub fn number(&mut self) -> u64 {
        self.0 = self.0.wrapping_add(0x9e3779b97f4a7c15);
        let mut mixed = self.0;
        mixed = (mixed ^ (mixed >> 30)).wrapping_mul(0xbf58476d1ce4e5b9);
        mixed = (mixed ^ (mixed >> 27)).wrapping_mul(0x94d049bb133111eb);
        mixed ^ (mixed >> 31)
    }

    /// Any word.
    pub fn word(&mut self) -> u16 {
        self.number() as u16
    }

    /// A number under `bound`, which is not 0.
    pub fn below(&mut self, bound: usize) -> usize {
        ((u128::from(self.number()) * bound as u128) >> 64) as usize
    }

    /// An index into a list that is not empty; the ends come up often.
    pub fn index(&mut self, length: usize) -> usize {
        match self.below(6) {
            0 => 0,
            1 => length - 1,
            _ => self.below(length),
        }
    }

    /// A number from `low` to `high`, both included.
    pub fn from(&mut self, low: u16, high: u16) -> u16 {
        low + self.below(usize::from(high - low) + 1) as u16
    }

    /// True once in `times`.
    pub fn once_in(&mut self, times: usize) -> bool {
        self.below(times) == 0
    }

    /// An item of a list that is not empty.
    pub fn of<'a, T>(&mut self, list: &'a [T]) -> &'a T {
        &list[self.below(list.len())]
    }

    /// The index of an item that fits, if there is one.
    pub fn find<T>(&mut self, list: &[T], will_do: impl Fn(&T) -> bool) -> Option<usize> {
        if list.is_empty() {
            return None;
        }
        let start = self.below(list.len());
        (start..list.len())
            .chain(0..start)
            .find(|&i| will_do(&list[i]))
    }

    /// A mask of items 1 to `count`; each is in it independently.
    pub fn mask(&mut self, count: usize) -> u32 {
        let any = self.number();
        let mask = match any >> 61 {
            0 => u32::MAX,
            1 => 0,
            2 | 3 => self.number() as u32 | any as u32,
            4 => self.number() as u32 & any as u32,
            _ => any as u32,
        };
        mask & ((1u64 << count) - 1) as u32
    }
}
