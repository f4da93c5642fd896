//! After `flags.rs`.

#[derive(Clone, Copy, PartialEq, Eq, Debug)]
pub struct Flags {
    pub overflow_or_less_than_flag: bool,
    pub equality_flag: bool,
    pub greater_than_flag: bool,
}

impl Flags {
    #[inline]
    pub fn reset(&mut self) {
        self.overflow_or_less_than_flag = false;
        self.equality_flag = false;
        self.greater_than_flag = false;
    }
}
