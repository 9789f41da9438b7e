//! Aliases (RFC 8783, section 6.1): read from bodies, shown, and written into records.

use crate::prefix::Prefix;
use serde_json::{Map, Value, json};

pub struct Alias {
    pub name: String,
    pub prefixes: Vec<Prefix>,
    ports: Vec<(u16, u16)>,
    protocols: Vec<u8>,
}

pub fn is_name(text: &[u8]) -> bool {
    !text.is_empty() && text.len() <= 64 && text.iter().all(|byte| byte.is_ascii_graphic())
}

/// The members of an object that has no others than these.
pub fn members<'a>(value: &'a Value, names: &[&str]) -> Option<&'a Map<String, Value>> {
    let object = value.as_object()?;
    if object.keys().all(|name| names.contains(&name.as_str())) { Some(object) } else { None }
}

/// The one item of an array.
pub fn sole(value: &Value) -> Option<&Value> {
    match value.as_array()?.as_slice() {
        [item] => Some(item),
        _ => None,
    }
}

/// A member as a list of at most sixteen items, which is empty where it isn't there.
fn items<T>(member: Option<&Value>, read: impl Fn(&Value) -> Option<T>) -> Option<Vec<T>> {
    let Some(value) = member else { return Some(vec![]) };
    let items = value.as_array()?;
    if items.len() > 32 {
        return None;
    }
    items.iter().map(read).collect()
}

fn port(value: &Value) -> Option<u16> {
    value.as_u64()?.try_into().ok()
}

fn range(value: &Value) -> Option<(u16, u16)> {
    let members = members(value, &["lower-port", "upper-port"])?;
    let lower = port(members.get("lower-port")?)?;
    let upper = members.get("upper-port").map_or(Some(lower), port)?;
    if upper < lower { None } else { Some((lower, upper)) }
}

/// The alias in a body, in one of its two spellings.
pub fn in_body(body: &Value) -> Option<Alias> {
    let body = members(body, &["ietf-dots-data-channel:alias", "ietf-dots-data-channel:aliases"])?;
    match (body.get("ietf-dots-data-channel:alias"), body.get("ietf-dots-data-channel:aliases")) {
        (Some(alias), None) => Alias::read(sole(alias)?),
        (None, Some(aliases)) => Alias::read(sole(members(aliases, &["alias"])?.get("alias")?)?),
        _ => None,
    }
}

impl Alias {
    fn read(value: &Value) -> Option<Alias> {
        let members = members(value, &["name", "target-prefix", "target-port-range", "target-protocol"])?;
        let name = members.get("name")?.as_str()?;
        let alias = Alias {
            name: name.to_string(),
            prefixes: items(members.get("target-prefix"), |item| Prefix::parse(item.as_str()?))?,
            ports: items(members.get("target-port-range"), range)?,
            protocols: items(members.get("target-protocol"), |item| item.as_u64()?.try_into().ok())?,
        };
        if !is_name(name.as_bytes()) || alias.prefixes.is_empty() { None } else { Some(alias) }
    }

    /// The members that say something.
    pub fn value(&self) -> Value {
        let mut members = Map::new();
        members.insert("name".to_string(), self.name.as_str().into());
        let mut put = |name: &str, items: Vec<Value>| {
            if !items.is_empty() {
                members.insert(name.to_string(), Value::Array(items));
            }
        };
        put("target-prefix", self.prefixes.iter().map(|prefix| prefix.text().into()).collect());
        put("target-port-range", self.ports.iter().map(|(lower, upper)| json!({"lower-port": lower, "upper-port": upper})).collect());
        put("target-protocol", self.protocols.iter().map(|protocol| (*protocol).into()).collect());
        Value::Object(members)
    }

    pub fn write(&self, record: &mut Vec<u8>) {
        counted(record, self.name.as_bytes());
        record.push(self.prefixes.len() as u8);
        for prefix in &self.prefixes {
            record.extend_from_slice(&[prefix.version, prefix.length]);
            record.extend_from_slice(&prefix.number.to_be_bytes());
        }
        record.push(self.ports.len() as u8);
        for (lower, upper) in &self.ports {
            record.extend_from_slice(&lower.to_be_bytes());
            record.extend_from_slice(&upper.to_be_bytes());
        }
        counted(record, &self.protocols);
        record.extend_from_slice(&[0, 0]);
    }
}

/// Bytes behind a byte that says how many they are.
pub fn counted(record: &mut Vec<u8>, bytes: &[u8]) {
    record.push(bytes.len() as u8);
    record.extend_from_slice(bytes);
}
