//! A tablet's values, to be kept over a restart.

use crate::ffi::Table;
use crate::{answer, calls};
use std::fmt;

/// The client table of a tablet, as bytes for keeping.
///
/// [`Hub::client_table`](crate::Hub::client_table) gives one, up to the end of its values, which the library finds.
/// [`Hub::restore`](crate::Hub::restore) takes one back, and it is the library that says there whether the bytes are a
/// table: any bytes can be put into this type.
///
/// ```
/// use ropethatch::{AddressKind, Identity, ListBuilder, Needs, SavedTable, Uuid};
/// # fn main() -> Result<(), Box<dyn std::error::Error>> {
/// let mut list = ListBuilder::new();
/// list.client_variable(5, Uuid::short(0xFF01), Needs::OPEN, 8);
/// let ada = Identity::new(AddressKind::Public, [1; 6])?;
///
/// let mut hub = list.build()?;
/// hub.connect(ada)?;
/// hub.set(ada, 5, b"3E10")?;
/// let kept: Vec<u8> = hub.client_table(ada).expect("ada has a slot").into_bytes();
///
/// let mut hub = list.build()?;
/// hub.connect(ada)?;
/// hub.restore(ada, &SavedTable::from_bytes(kept))?;
/// assert_eq!(hub.get_to_vec(ada, 5)?, b"3E10");
/// # Ok(())
/// # }
/// ```
#[derive(Clone, PartialEq, Eq, Hash)]
pub struct SavedTable(Vec<u8>);

impl SavedTable {
    /// Any bytes, to be offered as a table.
    pub fn from_bytes(bytes: impl Into<Vec<u8>>) -> SavedTable {
        SavedTable(bytes.into())
    }

    /// The bytes.
    pub fn as_bytes(&self) -> &[u8] {
        &self.0
    }

    /// The bytes, without a copy.
    pub fn into_bytes(self) -> Vec<u8> {
        self.0
    }

    /// The part of a hub's table up to the end of its values, which is the same table. In a valid state every table is one,
    /// so the library is proved not to refuse it.
    pub(crate) fn of(table: &Table) -> SavedTable {
        let end = answer::always(answer::length(calls::saved_length(table)));
        SavedTable(table[..end].to_vec())
    }
}

impl AsRef<[u8]> for SavedTable {
    fn as_ref(&self) -> &[u8] {
        self.as_bytes()
    }
}

/// Shows how long the table is, and no value: they may be a pupil's.
impl fmt::Debug for SavedTable {
    fn fmt(&self, f: &mut fmt::Formatter<'_>) -> fmt::Result {
        f.debug_struct("SavedTable")
            .field("len", &self.0.len())
            .finish_non_exhaustive()
    }
}
