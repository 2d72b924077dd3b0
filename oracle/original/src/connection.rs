//! Stand-in for connection.rs and the connection manager. The rules of the prepared record are the requirements'.

use crate::att::AttErrorCode;
use crate::config::PREPARE_WRITE_BUFFER_SIZE;
use crate::{Error, Identity, PacketPool};
use core::cell::RefCell;
use core::marker::PhantomData;

#[derive(Copy, Clone, Debug, Eq, PartialEq, Ord, PartialOrd)]
pub enum SecurityLevel {
    NoEncryption,
    Encrypted,
    EncryptedAuthenticated,
}

/// What waits on a link to be written. Handle 0: nothing.
#[derive(Clone)]
pub struct PrepareWriteState {
    pub handle: u16,
    pub offset: u16,
    pub len: u16,
    pub buf: [u8; PREPARE_WRITE_BUFFER_SIZE],
}

impl Default for PrepareWriteState {
    fn default() -> Self {
        Self {
            handle: 0,
            offset: 0,
            len: 0,
            buf: [0; PREPARE_WRITE_BUFFER_SIZE],
        }
    }
}

impl PrepareWriteState {
    fn prepare(&mut self, handle: u16, offset: u16, value: &[u8]) -> Result<(), AttErrorCode> {
        if handle == 0 {
            return Err(AttErrorCode::INVALID_HANDLE);
        }
        let empty = self.handle == 0;
        if !empty && self.handle != handle {
            return Err(AttErrorCode::PREPARE_QUEUE_FULL);
        }
        let have = usize::from(self.len);
        if !empty && usize::from(offset) != usize::from(self.offset) + have {
            return Err(AttErrorCode::INVALID_OFFSET);
        }
        let room = self.buf.get_mut(have..have + value.len());
        room.ok_or(AttErrorCode::PREPARE_QUEUE_FULL)?.copy_from_slice(value);
        if empty {
            self.handle = handle;
            self.offset = offset;
        }
        self.len += value.len() as u16;
        Ok(())
    }
}

pub struct Connection<'d, P: PacketPool> {
    pub(crate) identity: Identity,
    /// `None`: the link is gone.
    pub(crate) level: Option<SecurityLevel>,
    pub(crate) bonded: bool,
    pub(crate) prepared: &'d RefCell<PrepareWriteState>,
    pub(crate) pool: PhantomData<P>,
}

impl<P: PacketPool> Connection<'_, P> {
    pub fn peer_identity(&self) -> Identity {
        self.identity
    }

    pub fn security_level(&self) -> Result<SecurityLevel, Error> {
        self.level.ok_or(Error::NotFound)
    }

    pub fn is_bonded_peer(&self) -> bool {
        self.bonded
    }

    pub(crate) fn prepare_write(&self, handle: u16, offset: u16, value: &[u8]) -> Result<(), AttErrorCode> {
        self.prepared.borrow_mut().prepare(handle, offset, value)
    }

    pub(crate) fn with_prepare_write<R>(&self, f: impl FnOnce(&PrepareWriteState) -> R) -> R {
        f(&self.prepared.borrow())
    }

    /// The record ends empty; its bytes stay, as the requirements have it.
    pub(crate) fn clear_prepare_write(&self) {
        let mut record = self.prepared.borrow_mut();
        record.handle = 0;
        record.offset = 0;
        record.len = 0;
    }
}
