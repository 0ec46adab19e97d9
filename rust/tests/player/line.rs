//! A line of a trace: a letter and numbers.

pub struct Line<'a> {
    pub letter: &'a str,
    numbers: Vec<u64>,
    taken: usize,
}

impl<'a> Line<'a> {
    pub fn new(text: &'a str) -> Self {
        let mut words = text.split(' ');
        let letter = words.next().unwrap();
        let numbers = words.map(|w| w.parse().expect("a number")).collect();
        Line { letter, numbers, taken: 0 }
    }

    /// The next number.
    pub fn take<T: TryFrom<u64>>(&mut self) -> T {
        let number = self.numbers[self.taken];
        self.taken += 1;
        T::try_from(number).unwrap_or_else(|_| panic!("{number} is too large for its place"))
    }

    /// The next number, or 0 where a line may leave it out and does.
    pub fn take_or_0(&mut self) -> u64 {
        if self.taken < self.numbers.len() { self.take() } else { 0 }
    }

    pub fn flag(&mut self) -> bool {
        self.take::<u64>() == 1
    }
}

/// The sum by which bytes are shown.
pub fn sum(bytes: &[u8]) -> u32 {
    bytes.iter().fold(17, |s: u32, b| s.wrapping_mul(31).wrapping_add(u32::from(*b)))
}
