/// How often a block runs or an arm is taken: any u64.
#[derive(Debug, Clone, Copy, PartialEq, Eq, PartialOrd, Ord)]
pub struct Weight(u64);

impl Weight {
    pub const SCALE: u64 = 10_000;
    pub const ONCE: Weight = Weight(10_000);
    pub const NEVER: Weight = Weight(0);

    #[must_use]
    pub fn parts(raw: u64) -> Self {
        Weight(raw)
    }

    #[must_use]
    pub fn raw(self) -> u64 {
        self.0
    }

    /// The share of `whole` in ten thousandths, rounded down, and 0 of nothing.
    #[must_use]
    pub fn out_of(self, whole: Weight) -> u64 {
        let scaled = u128::from(self.0) * u128::from(Self::SCALE);
        let share = scaled.checked_div(u128::from(whole.0)).unwrap_or(0);
        u64::try_from(share).unwrap_or(u64::MAX)
    }
}

#[cfg(test)]
mod tests {
    use super::Weight;

    fn share(part: u64, whole: u64) -> u64 {
        Weight::parts(part).out_of(Weight::parts(whole))
    }

    #[test]
    fn a_share_is_not_rounded_as_in_p2() {
        assert_eq!(share(3_999, 9_998), 3_999);
        assert_eq!(share(4, 10), 4_000);
        assert_eq!(share(5, 0), 0);
    }

    #[test]
    fn a_share_over_the_largest_number_wraps() {
        assert_eq!(share(u64::MAX, 1), u64::MAX);
        assert_eq!(share(u64::MAX, u64::MAX), 10_000);
    }
}
