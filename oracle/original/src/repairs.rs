//! The original with a rule of the requirements put under it that it lacks, for one call.

use crate::attribute::{Attribute, AttributeData, Uuid, READ_LIMIT};
use crate::hub::{connection, free, row_limit, shared, uuid, Record};
use crate::{list, Answer, Call, Hub, Identity};

/// Changes to the stand-ins that make the original answer as the requirements do, where it is known not to.
#[derive(Clone, Copy, Debug, Default, PartialEq, Eq)]
pub struct Repairs {
    /// UUIDs of the list are compared in their shortest form. The request's own is the caller's to shorten.
    pub widen: bool,
    /// The asking tablet's values are read as shared ones are: cut to the room, and to the row's longest value.
    pub cut: bool,
}

impl Hub {
    /// Makes a call that changes nothing, with repairs for as long as it takes.
    pub fn repaired(&self, repairs: Repairs, call: &Call) -> Answer {
        let uuids = repairs.widen.then(|| self.shorten_uuids());
        let clients = repairs.cut.then(|| self.share_values_of(call.who()));
        READ_LIMIT.set(if repairs.cut { row_limit(call) } else { usize::MAX });
        let (answer, _) = self.call(call);
        READ_LIMIT.set(usize::MAX);
        if let Some(clients) = clients {
            self.unshare(clients);
        }
        if let Some(uuids) = uuids {
            self.server
                .table()
                .with_all_mut(|all| all.iter_mut().zip(uuids).for_each(|(att, uuid)| att.uuid = uuid));
        }
        answer
    }

    fn shorten_uuids(&self) -> Vec<Uuid> {
        self.server.table().with_all_mut(|all| {
            let shorten = |att: &mut Attribute<'_>| {
                let short = uuid(list::shortest(att.uuid.as_raw()));
                std::mem::replace(&mut att.uuid, short)
            };
            all.iter_mut().map(shorten).collect()
        })
    }

    /// Puts a copy of the tablet's values in the place of each client value, and gives what stood there.
    fn share_values_of(&self, who: Identity) -> Vec<(u16, AttributeData<'static>)> {
        let record = Record::default();
        let Some(table) = self.server.get_client_att_table(&connection(who, None, true, &record)) else {
            return Vec::new();
        };
        self.server.table().with_all_mut(|all| {
            let clients = all.iter_mut().filter(|att| att.data.value().is_none());
            let share = |att: &mut Attribute<'static>| {
                let value = table.get(att.handle).expect("a client value stands in the table");
                let copy = shared(value, att.data.is_variable_len(), value.len() as u16);
                (att.handle, std::mem::replace(&mut att.data, copy))
            };
            clients.map(share).collect()
        })
    }

    fn unshare(&self, clients: Vec<(u16, AttributeData<'static>)>) {
        for (handle, data) in clients {
            let copy = self
                .server
                .table()
                .with_attribute_mut(handle, |att| std::mem::replace(&mut att.data, data));
            free(copy.expect("a listed handle"));
        }
    }
}
