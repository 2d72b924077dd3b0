//! The Rust original's side: its server, called as it stands, with nothing around it.

mod counted;

use crate::att::{AttCfm, AttClient, AttCmd, AttReq};
use crate::attribute::{AttPermissions, Attribute, AttributeData, AttributeTable, Uuid};
use crate::attribute_server::AttributeServer;
use crate::calls::*;
use crate::connection::{Connection, PrepareWriteState, SecurityLevel};
use crate::hubs::{Entry, TABLETS};
use crate::{Identity, NoPool};
use embassy_sync::blocking_mutex::raw::NoopRawMutex;
use std::cell::RefCell;
use std::marker::PhantomData;

type Server = AttributeServer<'static, NoopRawMutex, NoPool, 64, TABLETS>;
type Tablet<'a> = Connection<'a, NoPool>;

pub struct Theirs {
    server: Server,
    links: Vec<RefCell<PrepareWriteState>>,
}

impl Theirs {
    pub fn open(list: &[Entry]) -> Theirs {
        let attributes = (1..).zip(list).map(attribute).collect();
        Theirs {
            server: Server::new(AttributeTable::from_list(attributes)),
            links: (0..TABLETS).map(|_| RefCell::default()).collect(),
        }
    }
}

impl Side for Theirs {
    fn put_waiting(&mut self, who: usize, handle: u16, data: &[u8]) {
        let record = self.links[who].get_mut();
        record.handle = handle;
        record.offset = 0;
        record.len = data.len() as u16;
        record.buf[..data.len()].copy_from_slice(data);
    }

    fn make(&mut self, who: usize, call: &Call) -> Vec<u8> {
        let mut out = [0xEE; ROOM];
        let (server, tablet) = (&self.server, &connection(who, &self.links[who]));
        let done = |ok: bool| vec![u8::from(ok)];
        match call {
            Call::Request(request) => {
                let packet = decoded(request);
                let len = counted::counted_process(server, tablet, &packet, &mut out);
                out[..len].to_vec()
            }
            Call::Get { handle } => {
                let read = counted::counted_get(server, tablet, *handle, &mut out);
                read.map_or_else(|_| vec![0], |len| out[..len].to_vec())
            }
            Call::Set { handle, value } => done(counted::counted_set(server, tablet, *handle, value).is_ok()),
            Call::CanRead { handle } => done(counted::counted_can_read(server, tablet, *handle).is_ok()),
            Call::ShouldNotify { handle } => done(counted::counted_should_notify(server, tablet, *handle)),
            Call::ShouldIndicate { handle } => done(counted::counted_should_indicate(server, tablet, *handle)),
            Call::Connect => done(counted::counted_connect(server, tablet).is_ok()),
            Call::Disconnect => {
                counted::counted_disconnect(server, tablet);
                done(true)
            }
            Call::SaveTable => {
                let mut table = counted::counted_get_table(server, tablet)
                    .expect("a slot")
                    .raw()
                    .to_vec();
                table.resize(640, 0);
                table
            }
            Call::RestoreTable { saved } => done(counted::counted_set_table(server, tablet, saved).is_ok()),
        }
    }
}

fn connection<'a>(who: usize, prepared: &'a RefCell<PrepareWriteState>) -> Tablet<'a> {
    let [a, b, c, d, e, f] = address(who);
    Connection {
        identity: Identity([1, a, b, c, d, e, f]),
        level: Some(SecurityLevel::Encrypted),
        bonded: true,
        prepared,
        pool: PhantomData,
    }
}

fn attribute((_handle, entry): (u16, &Entry)) -> Attribute<'static> {
    let mut value = entry.value.clone();
    value.resize(usize::from(entry.capacity), 0);
    let data = if entry.is_client {
        AttributeData::ClientSpecific {
            variable_len: entry.is_variable,
            capacity: entry.capacity,
        }
    } else {
        AttributeData::Data {
            variable_len: entry.is_variable,
            len: entry.value.len() as u16,
            value: value.leak(),
        }
    };
    Attribute {
        #[cfg(feature = "any-handles")]
        handle: _handle,
        uuid: Uuid::new_short(entry.uuid),
        permissions: AttPermissions {
            read: entry.read,
            write: entry.write,
        },
        data,
    }
}

fn decoded(request: &Request) -> AttClient<'_> {
    let (handle, other, data) = (request.handle, request.other, &request.data);
    let by = || Uuid::try_from(&data[..]).expect("a UUID of 2 or 16 bytes");
    AttClient::Request(match request.op {
        EXCHANGE_MTU => AttReq::ExchangeMtu { mtu: other },
        FIND_INFORMATION => AttReq::FindInformation {
            start_handle: handle,
            end_handle: other,
        },
        FIND_BY_TYPE_VALUE => AttReq::FindByTypeValue {
            start_handle: handle,
            end_handle: other,
            att_type: request.uuid,
            att_value: data,
        },
        READ_BY_TYPE => AttReq::ReadByType {
            start: handle,
            end: other,
            attribute_type: by(),
        },
        READ_BY_GROUP_TYPE => AttReq::ReadByGroupType {
            start: handle,
            end: other,
            group_type: by(),
        },
        READ => AttReq::Read { handle },
        READ_BLOB => AttReq::ReadBlob { handle, offset: other },
        WRITE => AttReq::Write { handle, data },
        PREPARE_WRITE => AttReq::PrepareWrite {
            handle,
            offset: other,
            value: data,
        },
        EXECUTE_WRITE => AttReq::ExecuteWrite { flags: other as u8 },
        WRITE_COMMAND => return AttClient::Command(AttCmd::Write { handle, data }),
        _ => return AttClient::Confirmation(AttCfm::ConfirmIndication),
    })
}
