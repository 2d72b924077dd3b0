//! Stand-ins for small things of the original's crate: errors, identities, the codec of numbers.

use crate::att::AttErrorCode;
use crate::codec::{self, Decode, Encode, FixedSize};

#[derive(Debug, Clone, Copy, PartialEq)]
pub enum Error {
    Att(AttErrorCode),
    Codec(codec::Error),
    InvalidValue,
    NotFound,
    ConnectionLimitReached,
    UnexpectedDataLength { expected: usize, actual: usize },
    InvalidUuidLength(usize),
}

impl From<AttErrorCode> for Error {
    fn from(code: AttErrorCode) -> Self {
        Error::Att(code)
    }
}

impl From<codec::Error> for Error {
    fn from(error: codec::Error) -> Self {
        Error::Codec(error)
    }
}

/// Kind, then the address, low byte first. Matched by equality; all zeros is the empty identity.
#[derive(Debug, Clone, Copy, PartialEq, Eq, Default)]
#[repr(C)]
pub struct Identity(pub [u8; 7]);

impl Identity {
    pub fn match_identity(&self, other: &Identity) -> bool {
        self == other
    }

    /// Refusal 3 of the requirements: the identity is empty or its kind is above 1.
    pub fn is_refused(&self) -> bool {
        *self == Identity::default() || self.0[0] > 1
    }
}

pub trait PacketPool {}

pub struct NoPool;

impl PacketPool for NoPool {}

impl FixedSize for u8 {
    const SIZE: usize = 1;
}

impl FixedSize for u16 {
    const SIZE: usize = 2;
}

impl Encode for u8 {
    fn encode(&self, dest: &mut [u8]) -> Result<(), codec::Error> {
        dest.copy_from_slice(&[*self]);
        Ok(())
    }
}

impl Encode for u16 {
    fn encode(&self, dest: &mut [u8]) -> Result<(), codec::Error> {
        dest.copy_from_slice(&self.to_le_bytes());
        Ok(())
    }
}

impl Decode<'_> for u8 {
    fn decode(src: &[u8]) -> Result<Self, codec::Error> {
        src.first().copied().ok_or(codec::Error::InvalidValue)
    }
}

impl Decode<'_> for u16 {
    fn decode(src: &[u8]) -> Result<Self, codec::Error> {
        let bytes = src.get(..2).ok_or(codec::Error::InvalidValue)?;
        Ok(u16::from_le_bytes([bytes[0], bytes[1]]))
    }
}
