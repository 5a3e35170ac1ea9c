//! Texts of words and decimal numbers.

/// The two digits of each number below 100.
static PAIRS: [[u8; 2]; 100] = {
    let mut pairs = [[b'0'; 2]; 100];
    let mut number = 0;
    while number < 100 {
        pairs[number] = [b'0' + number as u8 / 10, b'0' + number as u8 % 10];
        number += 1;
    }
    pairs
};

pub struct Text(pub Vec<u8>);

impl Text {
    pub fn new() -> Text {
        Text(Vec::with_capacity(1 << 20))
    }

    pub fn word(&mut self, word: &str) -> &mut Text {
        self.0.extend_from_slice(word.as_bytes());
        self
    }

    pub fn number(&mut self, mut number: u64) -> &mut Text {
        let (mut digits, mut first) = ([0; 20], 20);
        while number >= 10 {
            first -= 2;
            digits[first..first + 2].copy_from_slice(&PAIRS[(number % 100) as usize]);
            number /= 100;
        }
        if number > 0 || first == 20 {
            first -= 1;
            digits[first] = b'0' + number as u8;
        }
        self.0.extend_from_slice(&digits[first..]);
        self
    }

    /// Words, each followed by its number, and the end of the line.
    pub fn line(&mut self, fields: &[(&str, u64)]) {
        for (word, number) in fields {
            self.word(word).number(*number);
        }
        self.word("\n");
    }
}
