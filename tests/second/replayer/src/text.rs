//! A text written into lent memory.

pub struct Text<'a> {
    memory: &'a mut [u8],
    length: usize,
}

impl<'a> Text<'a> {
    pub fn new(memory: &'a mut [u8]) -> Text<'a> {
        Text { memory, length: 0 }
    }

    pub fn length(&self) -> usize {
        self.length
    }

    #[inline]
    pub fn words(&mut self, words: &str) {
        self.memory[self.length..][..words.len()].copy_from_slice(words.as_bytes());
        self.length += words.len();
    }

    #[inline]
    pub fn number(&mut self, number: u16) {
        let end = self.length + digits(number);
        let mut rest = number;
        for digit in self.memory[self.length..end].iter_mut().rev() {
            *digit = b'0' + (rest % 10) as u8;
            rest /= 10;
        }
        self.length = end;
    }

    /// A number that may be negative. One in whole cm has at most four digits.
    #[inline]
    pub fn signed(&mut self, number: i32) {
        if number < 0 {
            self.words("-");
        }
        self.number(number.unsigned_abs() as u16);
    }
}

fn digits(number: u16) -> usize {
    match number {
        0..10 => 1,
        10..100 => 2,
        100..1_000 => 3,
        1_000..10_000 => 4,
        10_000.. => 5,
    }
}
