//! The calls that are counted. Each function makes one call of the original and does nothing else.

use super::{Server, Tablet};
use crate::att::{AttClient, AttErrorCode};
use crate::attribute_server::sealed::DynamicAttributeServer;
use crate::attribute_server::{ClientAttTable, ClientAttTableView};
use crate::Error;

#[inline(never)]
pub fn counted_connect(server: &Server, tablet: &Tablet<'_>) -> Result<(), Error> {
    server.connect(tablet)
}

#[inline(never)]
pub fn counted_disconnect(server: &Server, tablet: &Tablet<'_>) {
    server.disconnect(tablet);
}

/// How many bytes were answered.
#[inline(never)]
pub fn counted_process(server: &Server, tablet: &Tablet<'_>, packet: &AttClient<'_>, out: &mut [u8]) -> usize {
    match server.process(tablet, packet, out) {
        Ok(Some(len)) => len,
        _ => 0,
    }
}

#[inline(never)]
pub fn counted_get(server: &Server, tablet: &Tablet<'_>, handle: u16, out: &mut [u8]) -> Result<usize, Error> {
    server.get(tablet, handle, out)
}

#[inline(never)]
pub fn counted_set(server: &Server, tablet: &Tablet<'_>, handle: u16, value: &[u8]) -> Result<(), Error> {
    server.set(tablet, handle, value)
}

/// The call of the original's trait; its inherent function of this name takes an attribute.
#[inline(never)]
pub fn counted_can_read(server: &Server, tablet: &Tablet<'_>, handle: u16) -> Result<(), AttErrorCode> {
    DynamicAttributeServer::can_read(server, tablet, handle)
}

#[inline(never)]
pub fn counted_should_notify(server: &Server, tablet: &Tablet<'_>, handle: u16) -> bool {
    server.should_notify(tablet, handle)
}

#[inline(never)]
pub fn counted_should_indicate(server: &Server, tablet: &Tablet<'_>, handle: u16) -> bool {
    server.should_indicate(tablet, handle)
}

#[inline(never)]
pub fn counted_get_table(server: &Server, tablet: &Tablet<'_>) -> Option<ClientAttTable> {
    server.get_client_att_table(tablet)
}

/// Saved bytes are read by the original's rules first, as the library reads them.
#[inline(never)]
pub fn counted_set_table(server: &Server, tablet: &Tablet<'_>, saved: &[u8]) -> Result<(), Error> {
    let view = ClientAttTableView::try_from_raw(saved)?;
    server.set_client_att_table(tablet, &view);
    Ok(())
}
