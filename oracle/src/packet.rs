//! A shim for the crate's ciphers, whose file is not among those published here: a key's bytes and a test of their
//! length, 32 and 64 as document 01 has them. Nothing is encrypted.

pub trait Cipher {
    fn key_bytes(&self) -> &[u8];
}

macro_rules! cipher {
    ($name:ident, $size:literal) => {
        pub struct $name([u8; $size]);

        impl $name {
            pub fn key_size() -> usize {
                $size
            }
        }

        impl TryFrom<&[u8]> for $name {
            type Error = std::array::TryFromSliceError;

            fn try_from(key: &[u8]) -> Result<Self, Self::Error> {
                Ok(Self(key.try_into()?))
            }
        }

        impl Cipher for $name {
            fn key_bytes(&self) -> &[u8] {
                &self.0
            }
        }
    };
}

cipher!(AesSivCmac256, 32);
cipher!(AesSivCmac512, 64);
