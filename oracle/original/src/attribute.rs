//! Stand-in for the original's attribute.rs: its own rules of values, cut out unchanged, with the list, the needs and the
//! group ends of the requirements.

use crate::att::AttErrorCode;
use crate::connection::SecurityLevel;
pub use crate::types::uuid::Uuid;
use core::cell::{Cell, RefCell};
use embassy_sync::blocking_mutex::raw::RawMutex;
use embassy_sync::blocking_mutex::Mutex;

const MAX_SMALL_DATA_SIZE: usize = 20;

#[allow(warnings, clippy::all)]
mod cut {
    use super::{AttErrorCode, MAX_SMALL_DATA_SIZE};
    include!(concat!(env!("OUT_DIR"), "/values.rs"));
    include!(concat!(env!("OUT_DIR"), "/subscriptions.rs"));
}
pub(crate) use cut::{AttributeData, CCCD};

/// The needs of the requirements: 0 never, 1 any link, 2 encrypted, 3 authenticated.
#[derive(Debug, Clone, Copy)]
pub struct AttPermissions {
    pub read: u8,
    pub write: u8,
}

impl AttPermissions {
    pub(crate) fn can_read(&self, level: SecurityLevel) -> Result<(), AttErrorCode> {
        meet(self.read, level, AttErrorCode::READ_NOT_PERMITTED)
    }

    pub(crate) fn can_write(&self, level: SecurityLevel) -> Result<(), AttErrorCode> {
        meet(self.write, level, AttErrorCode::WRITE_NOT_PERMITTED)
    }
}

fn meet(need: u8, level: SecurityLevel, never: AttErrorCode) -> Result<(), AttErrorCode> {
    match need {
        0 => Err(never),
        2 if level < SecurityLevel::Encrypted => Err(AttErrorCode::INSUFFICIENT_ENCRYPTION),
        3 if level < SecurityLevel::EncryptedAuthenticated => Err(AttErrorCode::INSUFFICIENT_AUTHENTICATION),
        _ => Ok(()),
    }
}

thread_local! {
    /// The most bytes that a read of a shared value gives. The original has no such limit; `Hub::repaired` sets one.
    pub(crate) static READ_LIMIT: Cell<usize> = const { Cell::new(usize::MAX) };
}

pub struct Attribute<'a> {
    pub(crate) handle: u16,
    pub(crate) uuid: Uuid,
    pub(crate) permissions: AttPermissions,
    pub(crate) data: AttributeData<'a>,
}

impl Attribute<'_> {
    pub(crate) fn read(&self, offset: usize, data: &mut [u8]) -> Result<usize, AttErrorCode> {
        let room = data.len().min(READ_LIMIT.get());
        self.data.read(offset, &mut data[..room])
    }

    pub(crate) fn write(&mut self, offset: usize, data: &[u8]) -> Result<(), AttErrorCode> {
        self.data.write(offset, data)
    }

    pub(crate) fn permissions(&self) -> AttPermissions {
        self.permissions
    }
}

/// An entry of the list as an attribute.
pub(crate) fn listed<'d>(handle: u16, needs: (u8, u8), uuid: Uuid, data: AttributeData<'d>) -> Attribute<'d> {
    let (read, write) = needs;
    Attribute {
        handle,
        uuid,
        permissions: AttPermissions { read, write },
        data,
    }
}

/// Attributes by ascending handles.
pub struct AttributeTable<'d, M: RawMutex, const MAX: usize> {
    inner: Mutex<M, RefCell<Vec<Attribute<'d>>>>,
}

impl<'d, M: RawMutex, const MAX: usize> AttributeTable<'d, M, MAX> {
    pub(crate) fn from_list(list: Vec<Attribute<'d>>) -> Self {
        assert!(list.len() <= MAX);
        Self {
            inner: Mutex::new(RefCell::new(list)),
        }
    }

    pub(crate) fn iterate<R>(&self, f: impl FnOnce(AttributeIterator<'_, 'd>) -> R) -> R {
        self.iterate_from(0, f)
    }

    pub(crate) fn iterate_from<R>(&self, start: u16, f: impl FnOnce(AttributeIterator<'_, 'd>) -> R) -> R {
        self.inner.lock(|list| {
            let attributes = &list.borrow()[..];
            let pos = attributes.partition_point(|att| att.handle < start);
            f(AttributeIterator { attributes, pos })
        })
    }

    pub(crate) fn with_attribute<R>(&self, handle: u16, f: impl FnOnce(&Attribute<'d>) -> R) -> Option<R> {
        self.inner
            .lock(|list| list.borrow().iter().find(|att| att.handle == handle).map(f))
    }

    pub(crate) fn with_attribute_mut<R>(&self, handle: u16, f: impl FnOnce(&mut Attribute<'d>) -> R) -> Option<R> {
        self.inner
            .lock(|list| list.borrow_mut().iter_mut().find(|att| att.handle == handle).map(f))
    }

    /// All attributes, to be changed from outside the server.
    pub(crate) fn with_all_mut<R>(&self, f: impl FnOnce(&mut [Attribute<'d>]) -> R) -> R {
        self.inner.lock(|list| f(&mut list.borrow_mut()))
    }
}

pub struct AttributeIterator<'a, 'd> {
    attributes: &'a [Attribute<'d>],
    pos: usize,
}

impl<'a, 'd> Iterator for AttributeIterator<'a, 'd> {
    type Item = (u16, &'a Attribute<'d>);

    fn next(&mut self) -> Option<Self::Item> {
        let att = self.attributes.get(self.pos)?;
        self.pos += 1;
        Some((att.handle, att))
    }
}

impl AttributeIterator<'_, '_> {
    /// The last listed handle before the next 0x2800 or 0x2801, or the list's last.
    pub fn service_group_end(&self) -> u16 {
        let opens = |att: &Attribute<'_>| [0x2800, 0x2801].map(Uuid::new_short).contains(&att.uuid);
        let rest = &self.attributes[self.pos..];
        let next = self.pos + rest.iter().position(opens).unwrap_or(rest.len());
        self.attributes[next - 1].handle
    }
}
