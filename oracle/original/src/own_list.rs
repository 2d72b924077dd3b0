//! The original's own list, permissions and group ends, cut out of its attribute.rs unchanged. Only how a list is made of
//! entries is ours. Its handles are places: 1, 2, 3 ...

use crate::att::AttErrorCode;
use crate::connection::SecurityLevel;
pub use crate::types::uuid::Uuid;
use bt_hci::uuid::declarations::{CHARACTERISTIC, PRIMARY_SERVICE, SECONDARY_SERVICE};
use core::cell::RefCell;
use embassy_sync::blocking_mutex::raw::RawMutex;
use embassy_sync::blocking_mutex::Mutex;

const MAX_SMALL_DATA_SIZE: usize = 20;

#[allow(warnings, clippy::all)]
mod cut {
    use super::*;
    include!(concat!(env!("OUT_DIR"), "/own_list.rs"));
    include!(concat!(env!("OUT_DIR"), "/values.rs"));
    include!(concat!(env!("OUT_DIR"), "/subscriptions.rs"));

    impl<'d, M: RawMutex, const MAX: usize> AttributeTable<'d, M, MAX> {
        pub(crate) fn from_list(list: std::vec::Vec<Attribute<'d>>) -> Self {
            let mut table = Self::new();
            list.into_iter().for_each(|att| drop(table.push(att)));
            table
        }

        /// All attributes, to be changed from outside the server.
        pub(crate) fn with_all_mut<R>(&self, f: impl FnOnce(&mut [Attribute<'d>]) -> R) -> R {
            self.with_inner_mut(|table| f(&mut table.attributes))
        }
    }
}
use cut::{AttPermissions, PermissionLevel};
pub(crate) use cut::{Attribute, AttributeData, AttributeTable, CCCD};

/// A stand-in for heapless::Vec: at most `MAX` elements.
struct Vec<T, const MAX: usize>(std::vec::Vec<T>);

impl<T, const MAX: usize> Vec<T, MAX> {
    fn new() -> Self {
        Vec(std::vec::Vec::new())
    }

    fn push(&mut self, element: T) -> Result<(), ()> {
        if self.0.len() == MAX {
            return Err(());
        }
        self.0.push(element);
        Ok(())
    }
}

impl<T, const MAX: usize> std::ops::Deref for Vec<T, MAX> {
    type Target = [T];

    fn deref(&self) -> &[T] {
        &self.0
    }
}

impl<T, const MAX: usize> std::ops::DerefMut for Vec<T, MAX> {
    fn deref_mut(&mut self) -> &mut [T] {
        &mut self.0
    }
}

/// An entry of the list as an attribute; its handle is not used.
pub(crate) fn listed<'d>(_handle: u16, needs: (u8, u8), uuid: Uuid, data: AttributeData<'d>) -> Attribute<'d> {
    let (read, write) = needs;
    Attribute {
        uuid,
        permissions: AttPermissions {
            read: level(read),
            write: level(write),
        },
        data,
    }
}

fn level(need: u8) -> PermissionLevel {
    match need {
        0 => PermissionLevel::NotAllowed,
        1 => PermissionLevel::Allowed,
        2 => PermissionLevel::EncryptionRequired,
        _ => PermissionLevel::AuthenticationRequired,
    }
}
