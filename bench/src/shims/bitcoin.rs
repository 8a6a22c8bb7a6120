//! The names that the Rust's files take from the crate `bitcoin`: keys and hashes by their bytes, scripts, and the block's weight. Nothing here
//! asks whether a key is a point of the curve.

use crate::{MiniscriptKey, ToPublicKey};

pub use super::script::Opcode;

pub mod blockdata {
    pub use super::super::script;
    pub use super::super::script::opcodes;
}

pub mod script {
    pub use super::super::script::{Error, PushBytesBuf};
}

pub mod hex {
    /// Bytes in hexadecimal.
    pub trait DisplayHex {
        fn as_hex(&self) -> String;
    }

    impl DisplayHex for [u8] {
        fn as_hex(&self) -> String {
            crate::records::to_hex(self)
        }
    }
}

macro_rules! bytes {
    ($name:ident, $length:literal) => {
        #[derive(Clone, Copy, PartialEq, Eq, PartialOrd, Ord, Hash, Debug)]
        pub struct $name(pub [u8; $length]);

        impl std::fmt::Display for $name {
            fn fmt(&self, f: &mut std::fmt::Formatter) -> std::fmt::Result {
                write!(f, "{}", crate::records::to_hex(&self.0))
            }
        }
    };
}

macro_rules! hash {
    ($length:literal) => {
        bytes!(Hash, $length);

        impl crate::hashes::Hash<$length> for Hash {
            fn from_byte_array(bytes: [u8; $length]) -> Self {
                Hash(bytes)
            }
        }
    };
}

pub mod hashes {
    /// A hash made of its bytes.
    pub trait Hash<const N: usize> {
        fn from_byte_array(bytes: [u8; N]) -> Self;
    }

    pub mod sha256 {
        hash!(32);
    }
    pub mod ripemd160 {
        hash!(20);
    }
    pub mod hash160 {
        hash!(20);
    }
    /// The Rust's own hash256.
    pub mod hash256 {
        hash!(32);
    }
}

/// A weight, of which only the block's is asked.
pub struct Weight(u64);

impl Weight {
    pub const MAX_BLOCK: Weight = Weight(4_000_000);

    pub const fn to_wu(self) -> u64 {
        self.0
    }
}

macro_rules! key {
    ($name:ident, $length:literal) => {
        bytes!($name, $length);

        impl $name {
            pub fn from_slice(bytes: &[u8]) -> Result<Self, crate::key::FromSliceError> {
                bytes.try_into().map($name).map_err(|_| crate::key::FromSliceError)
            }
        }

        impl crate::MiniscriptKey for $name {
            type Sha256 = crate::hashes::sha256::Hash;
            type Hash256 = crate::hash256::Hash;
            type Ripemd160 = crate::hashes::ripemd160::Hash;
            type Hash160 = crate::hashes::hash160::Hash;
        }

        impl crate::ToPublicKey for $name {}
    };
}

key!(PublicKey, 33);

pub mod key {
    /// A key that has another length.
    #[derive(Clone, Copy, PartialEq, Eq, Debug)]
    pub struct FromSliceError;

    impl std::fmt::Display for FromSliceError {
        fn fmt(&self, f: &mut std::fmt::Formatter) -> std::fmt::Result {
            write!(f, "{self:?}")
        }
    }

    impl std::error::Error for FromSliceError {}
}

pub mod secp256k1 {
    pub use super::key::FromSliceError as Error;

    key!(XOnlyPublicKey, 32);
}

/// The key that context.rs names for a context is one of the two above.
const _: () = {
    const fn is_key<K: MiniscriptKey + ToPublicKey>() {}
    is_key::<PublicKey>();
    is_key::<secp256k1::XOnlyPublicKey>();
};
