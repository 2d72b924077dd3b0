//! Stand-in for the original's attribute.rs, as lean as the file itself: attributes stand in a row, and a handle is a place
//! in it, so a lookup is one step. The rules of values are its own, cut out unchanged; needs and group ends are the
//! requirements', at the same cost.

use crate::att::AttErrorCode;
use crate::connection::SecurityLevel;
pub use crate::types::uuid::Uuid;
use core::cell::RefCell;
use embassy_sync::blocking_mutex::raw::RawMutex;
use embassy_sync::blocking_mutex::Mutex;

const MAX_SMALL_DATA_SIZE: usize = 20;

#[allow(warnings, clippy::all)]
mod cut {
    use super::{AttErrorCode, MAX_SMALL_DATA_SIZE};
    include!(concat!(env!("OUT_DIR"), "/values.rs"));
    include!(concat!(env!("OUT_DIR"), "/subscriptions.rs"));
}
pub(crate) use cut::{AttributeData, CCCD};

/// The needs of the requirements: 0 never, 1 any link, 2 encrypted, 3 authenticated.
#[derive(Debug, Clone, Copy)]
pub struct AttPermissions {
    pub read: u8,
    pub write: u8,
}

impl AttPermissions {
    pub(crate) fn can_read(&self, level: SecurityLevel) -> Result<(), AttErrorCode> {
        meet(self.read, level, AttErrorCode::READ_NOT_PERMITTED)
    }

    pub(crate) fn can_write(&self, level: SecurityLevel) -> Result<(), AttErrorCode> {
        meet(self.write, level, AttErrorCode::WRITE_NOT_PERMITTED)
    }
}

fn meet(need: u8, level: SecurityLevel, never: AttErrorCode) -> Result<(), AttErrorCode> {
    match need {
        0 => Err(never),
        2 if level < SecurityLevel::Encrypted => Err(AttErrorCode::INSUFFICIENT_ENCRYPTION),
        3 if level < SecurityLevel::EncryptedAuthenticated => Err(AttErrorCode::INSUFFICIENT_AUTHENTICATION),
        _ => Ok(()),
    }
}

pub struct Attribute<'a> {
    pub(crate) uuid: Uuid,
    pub(crate) permissions: AttPermissions,
    pub(crate) data: AttributeData<'a>,
}

impl Attribute<'_> {
    pub(crate) fn read(&self, offset: usize, data: &mut [u8]) -> Result<usize, AttErrorCode> {
        self.data.read(offset, data)
    }

    pub(crate) fn write(&mut self, offset: usize, data: &[u8]) -> Result<(), AttErrorCode> {
        self.data.write(offset, data)
    }

    pub(crate) fn permissions(&self) -> AttPermissions {
        self.permissions
    }
}

/// The attributes with handles 1, 2, 3 and so on.
pub struct AttributeTable<'d, M: RawMutex, const MAX: usize> {
    inner: Mutex<M, RefCell<Vec<Attribute<'d>>>>,
}

impl<'d, M: RawMutex, const MAX: usize> AttributeTable<'d, M, MAX> {
    pub(crate) fn from_list(list: Vec<Attribute<'d>>) -> Self {
        assert!(list.len() <= MAX);
        let inner = Mutex::new(RefCell::new(list));
        Self { inner }
    }

    pub(crate) fn iterate<R>(&self, f: impl FnOnce(AttributeIterator<'_, 'd>) -> R) -> R {
        self.iterate_from(0, f)
    }

    pub(crate) fn iterate_from<R>(&self, start: u16, f: impl FnOnce(AttributeIterator<'_, 'd>) -> R) -> R {
        let pos = usize::from(start.saturating_sub(1));
        self.inner.lock(|list| {
            let attributes = &list.borrow()[..];
            f(AttributeIterator { attributes, pos })
        })
    }

    pub(crate) fn with_attribute<R>(&self, handle: u16, f: impl FnOnce(&Attribute<'d>) -> R) -> Option<R> {
        let i = usize::from(handle.checked_sub(1)?);
        self.inner.lock(|list| list.borrow().get(i).map(f))
    }

    pub(crate) fn with_attribute_mut<R>(&self, handle: u16, f: impl FnOnce(&mut Attribute<'d>) -> R) -> Option<R> {
        let i = usize::from(handle.checked_sub(1)?);
        self.inner.lock(|list| list.borrow_mut().get_mut(i).map(f))
    }
}

pub struct AttributeIterator<'a, 'd> {
    attributes: &'a [Attribute<'d>],
    pos: usize,
}

impl<'a, 'd> Iterator for AttributeIterator<'a, 'd> {
    type Item = (u16, &'a Attribute<'d>);

    fn next(&mut self) -> Option<Self::Item> {
        let att = self.attributes.get(self.pos)?;
        self.pos += 1;
        Some((self.pos as u16, att))
    }
}

impl AttributeIterator<'_, '_> {
    /// The last handle before the next 0x2800 or 0x2801, or the list's last.
    pub fn service_group_end(&self) -> u16 {
        let opens = |att: &Attribute<'_>| att.uuid == Uuid::new_short(0x2800) || att.uuid == Uuid::new_short(0x2801);
        let rest = &self.attributes[self.pos..];
        (self.pos + rest.iter().position(opens).unwrap_or(rest.len())) as u16
    }
}
