/// A set of flags in one number, with the operations that the original uses.
#[macro_export]
macro_rules! bitflags {
    (
        $(#[$meta:meta])*
        $vis:vis struct $name:ident: $number:ty {
            $($(#[$flag_meta:meta])* const $flag:ident = $value:expr;)*
        }
    ) => {
        $(#[$meta])*
        $vis struct $name($number);

        impl $name {
            $($(#[$flag_meta])* pub const $flag: $name = $name($value);)*

            pub const fn empty() -> $name {
                $name(0)
            }
            pub const fn bits(self) -> $number {
                self.0
            }
            pub const fn from_bits_retain(bits: $number) -> $name {
                $name(bits)
            }
            pub const fn intersects(self, other: $name) -> bool {
                self.0 & other.0 != 0
            }
            pub const fn contains(self, other: $name) -> bool {
                self.0 & other.0 == other.0
            }
            pub fn insert(&mut self, other: $name) {
                self.0 |= other.0;
            }
            pub fn remove(&mut self, other: $name) {
                self.0 &= !other.0;
            }
        }

        impl ::core::ops::BitOr for $name {
            type Output = $name;
            fn bitor(self, other: $name) -> $name {
                $name(self.0 | other.0)
            }
        }

        impl ::core::ops::BitOrAssign for $name {
            fn bitor_assign(&mut self, other: $name) {
                self.0 |= other.0;
            }
        }
    };
}
