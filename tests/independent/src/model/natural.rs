//! Whole numbers from 0 to 2^256 − 1, exactly: sums, products with a 64-bit number, differences and order, digit by
//! digit.

/// Four digits of 64 bits, the highest first, so that the order of the arrays is that of the numbers.
#[derive(Clone, Copy, PartialEq, Eq, PartialOrd, Ord)]
pub struct Natural([u64; 4]);

impl Natural {
    pub const ZERO: Natural = Natural([0; 4]);

    pub fn new(value: u64) -> Natural {
        Natural([0, 0, 0, value])
    }

    pub fn plus(self, other: Natural) -> Natural {
        let (mut sum, mut carried) = ([0; 4], 0);
        for k in (0..4).rev() {
            let digit = u128::from(self.0[k]) + u128::from(other.0[k]) + carried;
            (sum[k], carried) = low_and_carried(digit);
        }
        assert_eq!(carried, 0, "a sum below 2^256");
        Natural(sum)
    }

    pub fn times(self, by: u64) -> Natural {
        let (mut product, mut carried) = ([0; 4], 0);
        for k in (0..4).rev() {
            let digit = u128::from(self.0[k]) * u128::from(by) + carried;
            (product[k], carried) = low_and_carried(digit);
        }
        assert_eq!(carried, 0, "a product below 2^256");
        Natural(product)
    }

    /// The larger of the two minus the smaller.
    pub fn apart(self, other: Natural) -> Natural {
        let (large, small) = (self.max(other), self.min(other));
        let (mut left, mut borrowed) = ([0; 4], 0);
        for k in (0..4).rev() {
            // one of the next digit's more, which is given back where it was not needed
            let digit = (1 << 64) + u128::from(large.0[k]) - u128::from(small.0[k]) - borrowed;
            let (low, unused) = low_and_carried(digit);
            (left[k], borrowed) = (low, 1 - unused);
        }
        assert_eq!(borrowed, 0, "the larger minus the smaller");
        Natural(left)
    }

    /// What a division by this number leaves.
    pub fn rest(self, by: u64) -> u64 {
        let rest = self.0.iter().fold(0, |rest, &digit| ((rest << 64) + u128::from(digit)) % u128::from(by));
        rest as u64
    }
}

fn low_and_carried(digit: u128) -> (u64, u128) {
    (digit as u64, digit >> 64)
}

impl std::fmt::Debug for Natural {
    fn fmt(&self, f: &mut std::fmt::Formatter<'_>) -> std::fmt::Result {
        let [a, b, c, d] = self.0;
        write!(f, "{a:#x}_{b:016x}_{c:016x}_{d:016x}")
    }
}
