//! The words of a session.

use original::connection::SecurityLevel;
use original::{Call, Entry, Identity, Request};

/// The words of a line, taken one by one. Each reader answers `None` where the word is missing or is no such thing.
pub struct Words<'a>(std::str::Split<'a, char>);

impl<'a> Words<'a> {
    pub fn of(line: &'a str) -> Words<'a> {
        Words(line.split(' '))
    }

    pub fn word(&mut self) -> Option<&'a str> {
        self.0.next()
    }

    /// That no word is left.
    pub fn end(&mut self) -> Option<()> {
        self.0.next().is_none().then_some(())
    }

    pub fn number(&mut self) -> Option<usize> {
        let word = self.word()?;
        let digits = word.bytes().all(|digit| digit.is_ascii_hexdigit());
        digits.then(|| usize::from_str_radix(word, 16).ok())?
    }

    pub fn u16(&mut self) -> Option<u16> {
        self.number()?.try_into().ok()
    }

    pub fn u8(&mut self) -> Option<u8> {
        self.number()?.try_into().ok()
    }

    pub fn flag(&mut self) -> Option<bool> {
        match self.word()? {
            "0" => Some(false),
            "1" => Some(true),
            _ => None,
        }
    }

    pub fn bytes(&mut self) -> Option<Vec<u8>> {
        match self.word()? {
            "-" => Some(Vec::new()),
            "" => None,
            hex if hex.len() % 2 == 0 && hex.bytes().all(|digit| digit.is_ascii_hexdigit()) => (0..hex.len())
                .step_by(2)
                .map(|at| u8::from_str_radix(&hex[at..at + 2], 16).ok())
                .collect(),
            _ => None,
        }
    }

    /// At most 640 bytes, with zeros after.
    pub fn table(&mut self) -> Option<[u8; 640]> {
        let bytes = self.bytes()?;
        let mut table = [0; 640];
        table.get_mut(..bytes.len())?.copy_from_slice(&bytes);
        Some(table)
    }

    pub fn identity(&mut self) -> Option<Identity> {
        self.bytes()?.try_into().ok().map(Identity)
    }

    fn link(&mut self) -> Option<Option<SecurityLevel>> {
        Some(match self.word()? {
            "g" => None,
            "p" => Some(SecurityLevel::NoEncryption),
            "e" => Some(SecurityLevel::Encrypted),
            "a" => Some(SecurityLevel::EncryptedAuthenticated),
            _ => return None,
        })
    }

    /// Which prepared record: 0 to F.
    pub fn record(&mut self) -> Option<usize> {
        self.number().filter(|record| *record < 16)
    }

    fn uuid(&mut self) -> Option<Vec<u8>> {
        self.bytes().filter(|uuid| matches!(uuid.len(), 2 | 16))
    }

    /// The words after `attr`.
    pub fn entry(&mut self) -> Option<Entry> {
        let (handle, uuid, read, write) = (self.u16()?, self.bytes()?, self.u8()?, self.u8()?);
        let (shared, variable) = match self.word()? {
            "sf" => (true, false),
            "sv" => (true, true),
            "cf" => (false, false),
            "cv" => (false, true),
            _ => return None,
        };
        let (capacity, start, len) = (self.u16()?, self.u16()?, self.u16()?);
        Some(Entry {
            handle,
            uuid,
            read,
            write,
            shared,
            variable,
            capacity,
            start,
            len,
        })
    }

    /// A call on a hub, by its first word.
    pub fn call(&mut self, word: &str) -> Option<Call> {
        let who = self.identity()?;
        let call = match word {
            "connect" => Call::Connect(who),
            "disconnect" => Call::Disconnect {
                who,
                bonded: self.flag()?,
            },
            "req" => Call::Process {
                who,
                link: self.link()?,
                record: self.record()?,
                room: self.number()?,
                request: self.request()?,
            },
            "get" => Call::Get {
                who,
                handle: self.u16()?,
                room: self.number()?,
            },
            "set" => Call::Set {
                who,
                handle: self.u16()?,
                value: self.bytes()?,
            },
            "canread" => Call::CanRead {
                who,
                link: self.link()?,
                handle: self.u16()?,
            },
            "canwrite" => Call::CanWrite {
                who,
                link: self.link()?,
                handle: self.u16()?,
            },
            "notify" => Call::ShouldNotify {
                who,
                handle: self.u16()?,
            },
            "indicate" => Call::ShouldIndicate {
                who,
                handle: self.u16()?,
            },
            "gettab" => Call::GetTable(who),
            "settab" => Call::SetTable {
                who,
                saved: self.bytes()?,
            },
            _ => return None,
        };
        self.end()?;
        Some(call)
    }

    fn request(&mut self) -> Option<Request> {
        Some(match self.word()? {
            "fi" => Request::FindInformation {
                start: self.u16()?,
                end: self.u16()?,
            },
            "ftv" => Request::FindByTypeValue {
                start: self.u16()?,
                end: self.u16()?,
                uuid: self.u16()?,
                value: self.bytes()?,
            },
            "rbt" => Request::ReadByType {
                start: self.u16()?,
                end: self.u16()?,
                uuid: self.uuid()?,
            },
            "rbg" => Request::ReadByGroupType {
                start: self.u16()?,
                end: self.u16()?,
                uuid: self.uuid()?,
            },
            "rd" => Request::Read { handle: self.u16()? },
            "rb" => Request::ReadBlob {
                handle: self.u16()?,
                offset: self.u16()?,
            },
            "rm" => Request::ReadMultiple { handles: self.bytes()? },
            "wr" => Request::Write {
                handle: self.u16()?,
                value: self.bytes()?,
            },
            "wc" => Request::WriteCommand {
                handle: self.u16()?,
                value: self.bytes()?,
            },
            "pw" => Request::PrepareWrite {
                handle: self.u16()?,
                offset: self.u16()?,
                value: self.bytes()?,
            },
            "ex" => Request::ExecuteWrite { flags: self.u8()? },
            "mtu" => Request::ExchangeMtu(self.u16()?),
            "cf" => Request::Confirmation,
            _ => return None,
        })
    }
}
