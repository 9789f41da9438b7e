//! What is answered to a request of the data channel, and what it changes.

use crate::alias::{self, Alias};
use crate::http::Request;
use crate::journal::Journal;
use crate::prefix::Prefix;
use crate::settings::Settings;
use serde_json::{Value, json};
use std::collections::BTreeMap;

/// A reply without a Location: its status, the methods that it tells, and its body.
pub struct Reply {
    pub status: u16,
    pub allow: &'static str,
    pub body: Option<Vec<u8>>,
}

/// A client with its aliases in the order of their writing. Beside each stands the slot of its entry.
struct Client {
    peer: u32,
    slot: usize,
    aliases: Vec<(Alias, usize)>,
}

pub struct Server {
    settings: Settings,
    never: Vec<Prefix>,
    journal: Journal,
    /// The registered clients of each domain.
    clients: Vec<BTreeMap<String, Client>>,
    time: u64,
    last: usize,
}

/// A resource, with the names in its path.
enum Place {
    Root,
    Client(String),
    Aliases(String),
    Alias(String, String),
}

enum Change<'a> {
    SetAlias(&'a Alias),
    DropAlias(&'a str),
    Register,
    Deregister,
}

fn status(status: u16) -> Reply {
    Reply { status, allow: "", body: None }
}

fn shown(value: &Value) -> Reply {
    Reply { status: 200, allow: "", body: serde_json::to_vec(value).ok() }
}

/// The name that a segment encodes, or the status of the refusal.
fn name_in(segment: &[u8]) -> Result<String, u16> {
    let digit = |at: usize| char::from(*segment.get(at)?).to_digit(16);
    let (mut name, mut at) = (vec![], 0);
    while at < segment.len() {
        match (segment[at], digit(at + 1), digit(at + 2)) {
            (b'%', Some(high), Some(low)) => {
                name.push((16 * high + low) as u8);
                at += 3;
            }
            (byte, ..) => {
                name.push(byte);
                at += 1;
            }
        }
    }
    if alias::is_name(&name) { String::from_utf8(name).map_err(|_| 400) } else { Err(400) }
}

fn place_in(path: &[u8]) -> Result<Place, u16> {
    let below = path.strip_prefix(b"/restconf/data/ietf-dots-data-channel:dots-data").ok_or(404u16)?;
    if below.is_empty() {
        return Ok(Place::Root);
    }
    let rest = below.strip_prefix(b"/dots-client=").ok_or(404u16)?;
    let (cuid, below) = rest.split_at(rest.iter().position(|byte| *byte == b'/').unwrap_or(rest.len()));
    match below {
        b"" => Ok(Place::Client(name_in(cuid)?)),
        b"/aliases" => Ok(Place::Aliases(name_in(cuid)?)),
        _ => {
            let name = below.strip_prefix(b"/aliases/alias=").filter(|name| !name.contains(&b'/')).ok_or(404u16)?;
            Ok(Place::Alias(name_in(cuid)?, name_in(name)?))
        }
    }
}

/// The body as JSON, or the status of the refusal.
fn json_of(request: &Request) -> Result<Value, u16> {
    if request.media.is_some_and(|media| !media.eq_ignore_ascii_case(b"application/yang-data+json")) {
        return Err(415);
    }
    serde_json::from_slice(request.body).map_err(|_| 400)
}

/// The cuid in the body of a client.
fn cuid_in(body: &Value) -> Option<&str> {
    let body = alias::members(body, &["ietf-dots-data-channel:dots-client"])?;
    let client = alias::sole(body.get("ietf-dots-data-channel:dots-client")?)?;
    alias::members(client, &["cuid"])?.get("cuid")?.as_str()
}

impl Server {
    pub fn new(settings: Settings) -> Server {
        let never = ["127.0.0.0/8", "224.0.0.0/4", "255.255.255.255/32", "::1/128", "ff00::/8"];
        Server {
            never: never.iter().filter_map(|text| Prefix::parse(text)).collect(),
            journal: Journal::new(settings.slots()),
            clients: settings.prefixes.iter().map(|_| BTreeMap::new()).collect(),
            settings,
            time: 0,
            last: 0,
        }
    }

    pub fn move_time(&mut self, at: u64) {
        self.time = self.time.max(at);
    }

    pub fn domain_of(&self, peer: u32) -> Option<usize> {
        self.settings.domain_of.get(&peer).copied()
    }

    /// What is answered to a request of this peer, which is a client of this domain.
    pub fn answer(&mut self, peer: u32, domain: usize, request: &Request) -> Reply {
        self.judge(peer, domain, request).unwrap_or_else(status)
    }

    fn judge(&mut self, peer: u32, domain: usize, request: &Request) -> Result<Reply, u16> {
        let query = request.target.iter().position(|byte| *byte == b'?');
        let place = place_in(&request.target[..query.unwrap_or(request.target.len())])?;
        if query.is_some() && request.method != b"GET" {
            return Err(400);
        }
        let refused = |allow| Ok(Reply { status: 405, allow, body: None });
        match (place, request.method) {
            (Place::Client(cuid), b"GET") => self.show_client(peer, domain, &cuid),
            (Place::Client(cuid), b"PUT") => self.put_client(peer, domain, cuid, &json_of(request)?),
            (Place::Client(cuid), b"DELETE") => self.delete_client(peer, domain, &cuid),
            (Place::Aliases(cuid), b"GET") => Ok(shown(&json!({"ietf-dots-data-channel:aliases": self.client(peer, domain, &cuid)?.all()}))),
            (Place::Alias(cuid, name), b"GET") => self.show_alias(peer, domain, &cuid, &name),
            (Place::Alias(cuid, name), b"PUT") => self.put_alias(peer, domain, &cuid, &name, &json_of(request)?),
            (Place::Alias(cuid, name), b"DELETE") => self.delete_alias(peer, domain, &cuid, &name),
            (Place::Root, _) => refused("POST"),
            (Place::Client(_), _) => refused("GET, PUT, POST, DELETE"),
            (Place::Aliases(_), _) => refused("GET"),
            (Place::Alias(..), _) => refused("GET, PUT, DELETE"),
        }
    }

    /// The registered client, which is this peer's.
    fn client(&self, peer: u32, domain: usize, cuid: &str) -> Result<&Client, u16> {
        match self.clients[domain].get(cuid) {
            Some(client) if client.peer == peer => Ok(client),
            Some(_) => Err(409),
            None => Err(404),
        }
    }

    fn show_client(&self, peer: u32, domain: usize, cuid: &str) -> Result<Reply, u16> {
        let aliases = self.client(peer, domain, cuid)?.all();
        Ok(shown(&json!({"ietf-dots-data-channel:dots-client": [{"cuid": cuid, "aliases": aliases, "acls": {"acl": []}}]})))
    }

    fn put_client(&mut self, peer: u32, domain: usize, cuid: String, body: &Value) -> Result<Reply, u16> {
        if cuid_in(body) != Some(cuid.as_str()) {
            return Err(400);
        }
        match self.client(peer, domain, &cuid) {
            Ok(_) => return Ok(status(204)),
            Err(404) if self.clients[domain].len() < self.settings.limit("clients") => {}
            Err(404) => return Err(503),
            Err(other) => return Err(other),
        }
        let slot = self.accept(peer, domain, &cuid, Change::Register);
        self.clients[domain].insert(cuid, Client { peer, slot, aliases: vec![] });
        Ok(status(201))
    }

    fn delete_client(&mut self, peer: u32, domain: usize, cuid: &str) -> Result<Reply, u16> {
        self.client(peer, domain, cuid)?;
        self.accept(peer, domain, cuid, Change::Deregister);
        self.clients[domain].remove(cuid);
        Ok(status(204))
    }

    fn show_alias(&self, peer: u32, domain: usize, cuid: &str, name: &str) -> Result<Reply, u16> {
        let client = self.client(peer, domain, cuid)?;
        let alias = &client.aliases[client.place_of(name).ok_or(404u16)?].0;
        Ok(shown(&json!({"ietf-dots-data-channel:alias": [alias.value()]})))
    }

    fn put_alias(&mut self, peer: u32, domain: usize, cuid: &str, name: &str, body: &Value) -> Result<Reply, u16> {
        let alias = alias::in_body(body).filter(|alias| alias.name == name).ok_or(400u16)?;
        let may_be = |prefix: &Prefix| !self.never.iter().any(|other| prefix.meets(other)) && self.settings.prefixes[domain].iter().any(|other| prefix.is_inside(other));
        if !alias.prefixes.iter().all(may_be) {
            return Err(400);
        }
        let client = self.client(peer, domain, cuid)?;
        let replaced = client.place_of(name);
        if replaced.is_none() && client.aliases.len() >= self.settings.limit("aliases") {
            return Err(503);
        }
        let slot = self.accept(peer, domain, cuid, Change::SetAlias(&alias));
        let aliases = &mut self.clients[domain].get_mut(cuid).ok_or(404u16)?.aliases;
        if let Some(at) = replaced {
            aliases.remove(at);
        }
        aliases.push((alias, slot));
        Ok(status(if replaced.is_some() { 204 } else { 201 }))
    }

    fn delete_alias(&mut self, peer: u32, domain: usize, cuid: &str, name: &str) -> Result<Reply, u16> {
        let at = self.client(peer, domain, cuid)?.place_of(name).ok_or(404u16)?;
        self.accept(peer, domain, cuid, Change::DropAlias(name));
        self.clients[domain].get_mut(cuid).ok_or(404u16)?.aliases.remove(at);
        Ok(status(204))
    }

    /// Appends the entry of a change, and answers its slot.
    fn accept(&mut self, peer: u32, domain: usize, cuid: &str, change: Change) -> usize {
        if self.journal.is_full() {
            self.compact();
        }
        let time = self.time;
        self.last = self.journal.append(|record| {
            record.extend_from_slice(&time.to_be_bytes());
            record.extend_from_slice(&peer.to_be_bytes());
            record.extend_from_slice(&(domain as u16).to_be_bytes());
            alias::counted(record, cuid.as_bytes());
            record.extend_from_slice(&[0; 5]);
            match change {
                Change::SetAlias(alias) => {
                    record.push(3);
                    alias.write(record);
                }
                Change::DropAlias(name) => {
                    record.push(4);
                    alias::counted(record, name.as_bytes());
                }
                Change::Register => record.push(7),
                Change::Deregister => record.push(8),
            }
        });
        self.last
    }

    /// Keeps the entries of the clients and aliases that are there, and the last one.
    fn compact(&mut self) {
        let mut slots: Vec<&mut usize> = vec![&mut self.last];
        for client in self.clients.iter_mut().flat_map(|clients| clients.values_mut()) {
            slots.push(&mut client.slot);
            slots.extend(client.aliases.iter_mut().map(|(_, slot)| slot));
        }
        let mut keep: Vec<usize> = slots.iter().map(|slot| **slot).collect();
        keep.sort();
        keep.dedup();
        for slot in slots {
            *slot = keep.partition_point(|kept| *kept < *slot);
        }
        self.journal.compact(&keep);
    }
}

impl Client {
    fn place_of(&self, name: &str) -> Option<usize> {
        self.aliases.iter().position(|(alias, _)| alias.name == name)
    }

    fn all(&self) -> Value {
        json!({"alias": self.aliases.iter().map(|(alias, _)| alias.value()).collect::<Vec<_>>()})
    }
}
