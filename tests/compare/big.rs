//! Whole numbers of any size, for the exact throughput equation: digits of 32 bits, the lowest first, the last of them not 0.

pub struct Big(Vec<u32>);

impl Big {
    pub fn product(factors: &[u128]) -> Big {
        factors.iter().fold(Big(vec![1]), |product, &factor| product.times(&Big::from(factor)))
    }

    fn from(number: u128) -> Big {
        Big((0..4).map(|place| (number >> (32 * place)) as u32).collect()).trimmed()
    }

    pub fn times(&self, other: &Big) -> Big {
        let mut digits = vec![0; self.0.len() + other.0.len()];
        for (i, &a) in self.0.iter().enumerate() {
            let mut carry = 0;
            for (j, &b) in other.0.iter().enumerate() {
                let sum = u64::from(digits[i + j]) + u64::from(a) * u64::from(b) + carry;
                digits[i + j] = sum as u32;
                carry = sum >> 32;
            }
            digits[i + other.0.len()] = carry as u32;
        }
        Big(digits).trimmed()
    }

    pub fn plus(&self, other: &Big) -> Big {
        let digit = |big: &Big, place: usize| u64::from(big.0.get(place).copied().unwrap_or(0));
        let mut carry = 0;
        let digits = (0..=self.0.len().max(other.0.len())).map(|place| {
            let sum = digit(self, place) + digit(other, place) + carry;
            carry = sum >> 32;
            sum as u32
        });
        Big(digits.collect()).trimmed()
    }

    pub fn above(&self, other: &Big) -> bool {
        let from_highest = |big: &Big| big.0.iter().rev().copied().collect::<Vec<u32>>();
        (self.0.len(), from_highest(self)) > (other.0.len(), from_highest(other))
    }

    fn trimmed(mut self) -> Big {
        while self.0.last() == Some(&0) {
            self.0.pop();
        }
        self
    }
}
