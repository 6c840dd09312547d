//! Stand-ins of our own for what the crate's files name and do not bring: the macro `bitflags!` and three old-style renderers.

/// The macro `bitflags!`, as far as render.rs uses it.
pub mod bitflags {
    /// Makes a set of flags: its constants, and the operations on sets that the crate uses.
    macro_rules! flags {
        (
            $(#[$outer:meta])*
            $visible:vis struct $Name:ident: $Bits:ty {
                $($(#[$inner:meta])* const $Flag:ident = $value:expr;)*
            }
        ) => {
            $(#[$outer])*
            $visible struct $Name {
                bits: $Bits,
            }

            impl $Name {
                $($(#[$inner])* pub const $Flag: Self = Self { bits: $value };)*

                /// Every constant with its name, in the order of the declaration.
                pub const FLAGS: &'static [(&'static str, Self)] = &[$((stringify!($Flag), Self::$Flag)),*];

                /// The bits of the set.
                pub const fn bits(&self) -> $Bits {
                    self.bits
                }

                /// The set without flags.
                pub const fn empty() -> Self {
                    Self { bits: 0 }
                }

                /// Whether all flags of `other` are in the set.
                pub const fn contains(&self, other: Self) -> bool {
                    self.bits & other.bits == other.bits
                }

                /// Whether a flag of `other` is in the set.
                pub const fn intersects(&self, other: Self) -> bool {
                    self.bits & other.bits != 0
                }
            }

            impl std::ops::BitOr for $Name {
                type Output = Self;

                /// The union of two sets.
                fn bitor(self, other: Self) -> Self {
                    Self { bits: self.bits | other.bits }
                }
            }

            impl std::ops::BitOrAssign for $Name {
                /// Adds the flags of another set.
                fn bitor_assign(&mut self, other: Self) {
                    self.bits |= other.bits;
                }
            }
        };
    }

    pub(crate) use flags as bitflags;
}

/// A renderer that output.rs can build and nobody runs.
pub struct OldStyle<N, R> {
    _parts: std::marker::PhantomData<(N, R)>,
}

impl<N, R> OldStyle<N, R> {
    /// Takes the inner renderer, as output.rs hands it over.
    pub fn new(_inner: R) -> Self {
        Self {
            _parts: std::marker::PhantomData,
        }
    }
}

/// The old-style ASCII renderer's place.
pub mod ascii {
    pub use super::OldStyle as AsciiRenderer;
}

/// The old-style large ASCII renderer's place.
pub mod ascii_large {
    pub use super::OldStyle as AsciiLargeRenderer;
}

/// The old-style box-drawing renderer's place.
pub mod box_drawing {
    pub use super::OldStyle as BoxDrawingRenderer;
}
