//! The macro `bitflags!`, with the methods that the sources call.

#[macro_export]
macro_rules! define_bitflags {
    (
        $(#[$attribute:meta])*
        $visibility:vis struct $name:ident: $bits:ty {
            $(const $flag:ident = $value:expr;)*
        }
    ) => {
        $(#[$attribute])*
        $visibility struct $name($bits);

        impl $name {
            $(pub const $flag: Self = Self($value);)*

            pub const fn empty() -> Self {
                Self(0)
            }

            pub const fn bits(&self) -> $bits {
                self.0
            }

            pub const fn is_empty(&self) -> bool {
                self.0 == 0
            }

            pub const fn contains(&self, flag: Self) -> bool {
                self.0 & flag.0 == flag.0
            }

            pub fn set(&mut self, flag: Self, value: bool) {
                if value {
                    self.0 |= flag.0;
                } else {
                    self.0 &= !flag.0;
                }
            }
        }
    };
}

pub use crate::define_bitflags as bitflags;
