//! Values that memories store: objects of bytes, and integers that are loaded and stored as one.

/// A value of a fixed number of bytes, which may be any bytes.
pub trait ByteValued: Copy {
    /// Its bytes.
    type Bytes: AsRef<[u8]> + AsMut<[u8]>;

    /// No bytes set.
    fn zeroed() -> Self::Bytes;

    /// The bytes of a value, as they lie in memory.
    fn to_bytes(self) -> Self::Bytes;

    /// The value of bytes.
    fn from_bytes(bytes: Self::Bytes) -> Self;
}

/// An integer that is loaded and stored as one.
pub trait AtomicAccess: Copy {
    /// How many bytes it has: 1, 2, 4 or 8.
    const WIDTH: u32;

    /// As a number, its lowest byte first.
    fn to_number(self) -> u64;

    /// Of a number.
    fn from_number(number: u64) -> Self;
}

macro_rules! byte_valued {
    ($($T:ty)+) => {
        $(
            impl ByteValued for $T {
                type Bytes = [u8; size_of::<$T>()];

                fn zeroed() -> Self::Bytes {
                    [0; size_of::<$T>()]
                }

                fn to_bytes(self) -> Self::Bytes {
                    self.to_ne_bytes()
                }

                fn from_bytes(bytes: Self::Bytes) -> $T {
                    <$T>::from_ne_bytes(bytes)
                }
            }
        )+
    };
}

byte_valued! { u8 u16 u32 u64 u128 usize i8 i16 i32 i64 i128 isize }

impl<const N: usize> ByteValued for [u8; N] {
    type Bytes = [u8; N];

    fn zeroed() -> [u8; N] {
        [0; N]
    }

    fn to_bytes(self) -> [u8; N] {
        self
    }

    fn from_bytes(bytes: [u8; N]) -> [u8; N] {
        bytes
    }
}

macro_rules! atomic_access {
    ($($T:ty as $U:ty)+) => {
        $(
            impl AtomicAccess for $T {
                const WIDTH: u32 = size_of::<$T>() as u32;

                #[inline]
                fn to_number(self) -> u64 {
                    u64::from((self as $U).to_le())
                }

                #[inline]
                fn from_number(number: u64) -> $T {
                    <$U>::from_le(number as $U) as $T
                }
            }
        )+
    };
}

atomic_access! { u8 as u8 u16 as u16 u32 as u32 u64 as u64 i8 as u8 i16 as u16 i32 as u32 i64 as u64 usize as u64 isize as u64 }
