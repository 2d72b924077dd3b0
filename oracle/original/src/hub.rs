//! A hub run by the original.

use crate::att::{AttCfm, AttClient, AttCmd, AttReq};
use crate::attribute::{listed, Attribute, AttributeData, AttributeTable, Uuid};
use crate::attribute_server::sealed::DynamicAttributeServer as _;
use crate::attribute_server::{AttributeServer, ClientAttTableView};
use crate::connection::{Connection, PrepareWriteState, SecurityLevel};
use crate::slots::{self, Slot, Table, SLOTS};
use crate::table::{self, whole};
use crate::{Answer, Call, Entry, Error, Identity, NoPool, Request};
use embassy_sync::blocking_mutex::raw::NoopRawMutex;
use std::cell::RefCell;
use std::marker::PhantomData;
use std::panic::{self, AssertUnwindSafe};
use std::sync::Once;

pub(crate) type Server = AttributeServer<'static, NoopRawMutex, NoPool, 64, SLOTS>;
pub(crate) type Tablet<'a> = Connection<'a, NoPool>;
pub(crate) type Record = RefCell<PrepareWriteState>;

/// How many prepared records a hub has, one for each link.
pub const RECORDS: usize = 16;

/// What the response buffer is lent full of.
pub const FILL: u8 = 0xEE;

/// The original with its list, its store and its links.
pub struct Hub {
    pub(crate) server: Server,
    list: Vec<Entry>,
    /// The store as it was given; what is not part of a value never changes.
    store: Vec<u8>,
    records: Vec<Record>,
    /// A clear table of the list.
    blank: Table,
}

impl Hub {
    /// A fresh hub. `list` and `store` must pass rule 1.
    ///
    /// # Errors
    ///
    /// Refusal 6, or what the original stopped with.
    pub fn open(list: &[Entry], store: &[u8]) -> Result<Hub, Answer> {
        let server = server(list, store)?;
        Ok(Hub {
            blank: slots::read(&server, 0).table,
            server,
            list: list.to_vec(),
            store: store.to_vec(),
            records: (0..RECORDS).map(|_| Record::default()).collect(),
        })
    }

    /// Makes a call. Also tells whether the response buffer past the answer is as it was lent.
    pub fn call(&self, call: &Call) -> (Answer, bool) {
        let mut out = vec![FILL; room(call)];
        let answer = caught(|| self.dispatch(call, &mut out));
        let used = match &answer {
            Answer::Value(bytes) if !matches!(call, Call::GetTable(_)) => bytes.len(),
            _ => 0,
        };
        let clean = out[used..].iter().all(|byte| *byte == FILL);
        (answer, clean)
    }

    /// Makes a call by the requirements' rule for what it drops of client values: that becomes zeros. Also tells whether
    /// the original had left anything else there.
    pub fn call_and_clear(&self, call: &Call) -> (Answer, bool, bool) {
        let before = call.writes().then(|| self.tables());
        let (answer, clean) = self.call(call);
        let dropped = before.is_some_and(|before| self.clear_dropped(&before));
        (answer, clean, dropped)
    }

    fn tables(&self) -> [Table; SLOTS] {
        std::array::from_fn(|i| self.slot(i).table)
    }

    fn clear_dropped(&self, before: &[Table; SLOTS]) -> bool {
        let mut found = false;
        for (i, before) in before.iter().enumerate() {
            let mut slot = self.slot(i);
            if table::clear_dropped(before, &mut slot.table) {
                self.poke_slot(i, &slot);
                found = true;
            }
        }
        found
    }

    fn dispatch(&self, call: &Call, out: &mut [u8]) -> Answer {
        let server = &self.server;
        let unused = Record::default();
        let tablet = |who, link| connection(who, link, true, &unused);
        match call {
            Call::Connect(who) => done(server.connect(&tablet(*who, None))),
            Call::Disconnect { who, bonded } => {
                disconnect(server, &connection(*who, None, *bonded, &unused));
                Answer::Done
            }
            Call::Process {
                who,
                link,
                record,
                request,
                ..
            } => process(
                server,
                &connection(*who, *link, true, &self.records[*record]),
                request,
                out,
            ),
            Call::Get { who, handle, .. } => match server.get(&tablet(*who, None), *handle, out) {
                Ok(len) => Answer::Value(out[..len].to_vec()),
                Err(error) => failed(error),
            },
            Call::Set { who, handle, value } => done(server.set(&tablet(*who, None), *handle, value)),
            Call::CanRead { who, link, handle } => done(sealed_can_read(server, &tablet(*who, *link), *handle)),
            Call::CanWrite { who, link, handle } => done(sealed_can_write(server, &tablet(*who, *link), *handle)),
            Call::ShouldNotify { who, handle } => yes(server.should_notify(&tablet(*who, None), *handle)),
            Call::ShouldIndicate { who, handle } => yes(server.should_indicate(&tablet(*who, None), *handle)),
            Call::GetTable(who) => match server.get_client_att_table(&tablet(*who, None)) {
                Some(table) => Answer::Value(whole(&table).to_vec()),
                None => Answer::Nothing,
            },
            Call::SetTable { who, saved } => match ClientAttTableView::try_from_raw(saved) {
                Ok(view) => {
                    server.set_client_att_table(&tablet(*who, None), &view);
                    Answer::Done
                }
                Err(error) => failed(error),
            },
        }
    }

    /// A clear table of the list.
    pub fn blank(&self) -> &Table {
        &self.blank
    }

    pub fn list(&self) -> &[Entry] {
        &self.list
    }

    /// The present length of each attribute's value; `None` for client values.
    pub fn lengths(&self) -> Vec<Option<u16>> {
        let length = |att: &Attribute<'_>| match att.data {
            AttributeData::Data { len, .. } => Some(len),
            _ => None,
        };
        self.server
            .table()
            .iterate(|all| all.map(|(_, att)| length(att)).collect())
    }

    /// The store's bytes.
    pub fn store(&self) -> Vec<u8> {
        let mut store = self.store.clone();
        self.server.table().iterate(|all| {
            for (entry, (_, att)) in self.list.iter().zip(all) {
                if let AttributeData::Data { value, .. } = &att.data {
                    store[usize::from(entry.start)..][..value.len()].copy_from_slice(value);
                }
            }
        });
        store
    }

    /// Changes bytes of the store from outside.
    pub fn poke_store(&mut self, at: usize, bytes: &[u8]) {
        let mut store = self.store();
        store[at..at + bytes.len()].copy_from_slice(bytes);
        self.server.table().with_all_mut(|all| {
            for (entry, att) in self.list.iter().zip(all) {
                if let AttributeData::Data { value, .. } = &mut att.data {
                    let len = value.len();
                    value.copy_from_slice(&store[usize::from(entry.start)..][..len]);
                }
            }
        });
        self.store = store;
    }

    /// Changes the length of a shared value from outside. `None`: no such handle.
    pub fn poke_length(&self, handle: u16, new: u16) -> Option<()> {
        self.server.table().with_attribute_mut(handle, |att| {
            if let AttributeData::Data { len, .. } = &mut att.data {
                *len = new;
            }
        })
    }

    pub fn slot(&self, i: usize) -> Slot {
        slots::read(&self.server, i)
    }

    pub fn poke_slot(&self, i: usize, slot: &Slot) {
        slots::write(&self.server, i, slot);
    }

    pub fn record(&self, i: usize) -> PrepareWriteState {
        self.records[i].borrow().clone()
    }

    pub fn poke_record(&self, i: usize, record: PrepareWriteState) {
        *self.records[i].borrow_mut() = record;
    }
}

impl Drop for Hub {
    fn drop(&mut self) {
        free_all(&self.server);
    }
}

fn free_all(server: &Server) {
    server.table().with_all_mut(|all| {
        for att in all {
            let client = AttributeData::ClientSpecific {
                variable_len: false,
                capacity: 0,
            };
            free(std::mem::replace(&mut att.data, client));
        }
    });
}

/// The original over a list and a store that pass rule 1.
pub(crate) fn server(list: &[Entry], store: &[u8]) -> Result<Server, Answer> {
    let attributes = list.iter().map(|entry| attribute(entry, store)).collect();
    let mut opened = None;
    let answer = caught(|| {
        opened = Some(Server::new(AttributeTable::from_list(attributes)));
        Answer::Done
    });
    match answer {
        Answer::Stopped(why) if why.contains("overflow") => Err(Answer::Refused(6)),
        answer => opened.ok_or(answer),
    }
}

fn attribute(entry: &Entry, store: &[u8]) -> Attribute<'static> {
    let data = if entry.shared {
        let value = &store[usize::from(entry.start)..][..usize::from(entry.capacity)];
        shared(value, entry.variable, entry.len)
    } else {
        AttributeData::ClientSpecific {
            variable_len: entry.variable,
            capacity: entry.capacity,
        }
    };
    listed(entry.handle, (entry.read, entry.write), uuid(&entry.uuid), data)
}

/// A value on the heap. `free` gives it back.
pub(crate) fn shared(value: &[u8], variable_len: bool, len: u16) -> AttributeData<'static> {
    AttributeData::Data {
        variable_len,
        len,
        value: Box::leak(value.into()),
    }
}

pub(crate) fn free(data: AttributeData<'static>) {
    if let AttributeData::Data { value, .. } = data {
        // SAFETY: `shared` alone makes such data, from a box that it leaks; `data` was the only one to hold it.
        drop(unsafe { Box::from_raw(value) });
    }
}

/// Of 2 or 16 bytes.
pub(crate) fn uuid(bytes: &[u8]) -> Uuid {
    Uuid::try_from(bytes).expect("a UUID of 2 or 16 bytes")
}

pub(crate) fn connection<'a>(
    identity: Identity,
    level: Option<SecurityLevel>,
    bonded: bool,
    prepared: &'a Record,
) -> Tablet<'a> {
    Connection {
        identity,
        level,
        bonded,
        prepared,
        pool: PhantomData,
    }
}

pub(crate) fn disconnect(server: &Server, tablet: &Tablet<'_>) {
    server.disconnect(tablet);
}

/// The call of the original's trait; its inherent function of this name takes an attribute.
fn sealed_can_read(server: &Server, tablet: &Tablet<'_>, handle: u16) -> Result<(), Error> {
    let server: &dyn crate::attribute_server::sealed::DynamicAttributeServer<NoPool> = server;
    Ok(server.can_read(tablet, handle)?)
}

fn sealed_can_write(server: &Server, tablet: &Tablet<'_>, handle: u16) -> Result<(), Error> {
    let server: &dyn crate::attribute_server::sealed::DynamicAttributeServer<NoPool> = server;
    Ok(server.can_write(tablet, handle)?)
}

fn process(server: &Server, tablet: &Tablet<'_>, request: &Request, out: &mut [u8]) -> Answer {
    match server.process(tablet, &decoded(request), out) {
        Ok(Some(len)) => Answer::Value(out[..len].to_vec()),
        Ok(None) => Answer::Nothing,
        Err(error) => Answer::Error(format!("{error:?}")),
    }
}

fn decoded(request: &Request) -> AttClient<'_> {
    AttClient::Request(match *request {
        Request::WriteCommand { handle, ref value } => {
            return AttClient::Command(AttCmd::Write { handle, data: value });
        }
        Request::Confirmation => return AttClient::Confirmation(AttCfm::ConfirmIndication),
        Request::ExchangeMtu(mtu) => AttReq::ExchangeMtu { mtu },
        Request::FindInformation { start, end } => AttReq::FindInformation {
            start_handle: start,
            end_handle: end,
        },
        Request::FindByTypeValue {
            start,
            end,
            uuid,
            ref value,
        } => AttReq::FindByTypeValue {
            start_handle: start,
            end_handle: end,
            att_type: uuid,
            att_value: value,
        },
        Request::ReadByType {
            start,
            end,
            uuid: ref bytes,
        } => AttReq::ReadByType {
            start,
            end,
            attribute_type: uuid(bytes),
        },
        Request::ReadByGroupType {
            start,
            end,
            uuid: ref bytes,
        } => AttReq::ReadByGroupType {
            start,
            end,
            group_type: uuid(bytes),
        },
        Request::Read { handle } => AttReq::Read { handle },
        Request::ReadBlob { handle, offset } => AttReq::ReadBlob { handle, offset },
        Request::ReadMultiple { ref handles } => AttReq::ReadMultiple { handles },
        Request::Write { handle, ref value } => AttReq::Write { handle, data: value },
        Request::PrepareWrite {
            handle,
            offset,
            ref value,
        } => AttReq::PrepareWrite { handle, offset, value },
        Request::ExecuteWrite { flags } => AttReq::ExecuteWrite { flags },
    })
}

fn room(call: &Call) -> usize {
    match call {
        Call::Process { room, .. } | Call::Get { room, .. } => *room,
        _ => 0,
    }
}

/// The longest value of a row of the call's response.
pub fn row_limit(call: &Call) -> usize {
    match call {
        Call::Process { request, .. } => match request {
            Request::ReadByType { .. } => 253,
            Request::ReadByGroupType { .. } => 251,
            _ => usize::MAX,
        },
        _ => usize::MAX,
    }
}

fn yes(yes: bool) -> Answer {
    if yes {
        Answer::Done
    } else {
        Answer::Nothing
    }
}

fn done(result: Result<(), Error>) -> Answer {
    result.map_or_else(failed, |()| Answer::Done)
}

/// The original's errors under the requirements' numbers.
pub(crate) fn failed(error: Error) -> Answer {
    match error {
        Error::Att(code) => Answer::Att(code.to_u8()),
        Error::InvalidValue => Answer::Refused(4),
        Error::ConnectionLimitReached => Answer::Refused(7),
        Error::NotFound => Answer::Refused(8),
        Error::UnexpectedDataLength { .. } => Answer::Refused(9),
        error => Answer::Error(format!("{error:?}")),
    }
}

thread_local! {
    static MESSAGE: RefCell<String> = const { RefCell::new(String::new()) };
    static CATCHING: std::cell::Cell<bool> = const { std::cell::Cell::new(false) };
}

/// Runs the original, and turns a panic of it into an answer.
pub(crate) fn caught(run: impl FnOnce() -> Answer) -> Answer {
    static HOOK: Once = Once::new();
    HOOK.call_once(keep_messages);
    CATCHING.set(true);
    let answer = panic::catch_unwind(AssertUnwindSafe(run));
    CATCHING.set(false);
    answer.unwrap_or_else(|_| Answer::Stopped(MESSAGE.take()))
}

/// Keeps the message of a panic of the original; others are printed as ever.
fn keep_messages() {
    let usual = panic::take_hook();
    panic::set_hook(Box::new(move |info| {
        if CATCHING.get() {
            MESSAGE.set(info.to_string());
        } else {
            usual(info);
        }
    }));
}
