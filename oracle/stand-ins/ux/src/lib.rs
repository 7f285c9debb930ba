//! Stand-in for the crate `ux`: unsigned integers of odd widths. Only what the original files use.
//! `new` panics when the value does not fit, as the crate documents.
#![allow(non_camel_case_types)]

#[derive(Debug, Clone, Copy, PartialEq, Eq)]
pub struct TryFromIntError(());

macro_rules! uint {
    ($name:ident, $repr:ty, $bits:expr, from [$($from:ty),*], try_from [$($try:ty),*], into [$($into:ty),*]) => {
        #[derive(Clone, Copy, PartialEq, Eq, PartialOrd, Ord, Hash, Default)]
        pub struct $name($repr);

        impl $name {
            pub const MIN: Self = Self(0);
            pub const MAX: Self = Self(((1 as $repr) << $bits) - 1);
            #[inline]
            pub const fn new(v: $repr) -> Self {
                assert!(v <= Self::MAX.0);
                Self(v)
            }
        }

        impl core::fmt::Debug for $name {
            fn fmt(&self, f: &mut core::fmt::Formatter<'_>) -> core::fmt::Result {
                core::fmt::Debug::fmt(&self.0, f)
            }
        }

        $(impl From<$from> for $name {
            #[inline]
            fn from(v: $from) -> Self { Self(v as $repr) }
        })*

        $(impl TryFrom<$try> for $name {
            type Error = TryFromIntError;
            #[inline]
            fn try_from(v: $try) -> Result<Self, Self::Error> {
                if v > Self::MAX.0 as $try { Err(TryFromIntError(())) } else { Ok(Self(v as $repr)) }
            }
        })*

        $(impl From<$name> for $into {
            #[inline]
            fn from(v: $name) -> Self { v.0 as $into }
        })*

        impl<T> core::ops::Shl<T> for $name where $repr: core::ops::Shl<T, Output = $repr> {
            type Output = Self;
            #[inline]
            fn shl(self, n: T) -> Self { Self((self.0 << n) & Self::MAX.0) }
        }
        impl<T> core::ops::Shr<T> for $name where $repr: core::ops::Shr<T, Output = $repr> {
            type Output = Self;
            #[inline]
            fn shr(self, n: T) -> Self { Self(self.0 >> n) }
        }
        impl core::ops::Not for $name {
            type Output = Self;
            #[inline]
            fn not(self) -> Self { Self(!self.0 & Self::MAX.0) }
        }
        impl core::ops::BitAnd for $name {
            type Output = Self;
            #[inline]
            fn bitand(self, o: Self) -> Self { Self(self.0 & o.0) }
        }
        impl core::ops::BitOr for $name {
            type Output = Self;
            #[inline]
            fn bitor(self, o: Self) -> Self { Self(self.0 | o.0) }
        }
        impl core::ops::BitAndAssign for $name {
            #[inline]
            fn bitand_assign(&mut self, o: Self) { self.0 &= o.0 }
        }
        impl core::ops::BitOrAssign for $name {
            #[inline]
            fn bitor_assign(&mut self, o: Self) { self.0 |= o.0 }
        }
    };
}

uint!(u2, u8, 2, from [], try_from [u8, u16, u32, usize], into [u8, u16, u32, usize]);
uint!(u4, u8, 4, from [], try_from [u8, u16, u32, usize], into [u8, u16, u32, usize]);
uint!(u7, u8, 7, from [], try_from [u8, u16, u32, usize], into [u8, u16, u32, usize]);
uint!(u14, u16, 14, from [u8], try_from [u16, u32, usize], into [u16, u32, usize]);
uint!(u21, u32, 21, from [u8], try_from [u32, usize], into [u32, usize]);
uint!(u28, u32, 28, from [u8], try_from [u32, usize], into [u32, usize]);
