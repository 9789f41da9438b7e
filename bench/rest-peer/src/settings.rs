//! The settings of one server, of which it knows domains, prefixes, clients and capacities.

use crate::prefix::Prefix;
use std::collections::HashMap;

pub struct Settings {
    names: Vec<String>,
    /// The prefixes of each domain.
    pub prefixes: Vec<Vec<Prefix>>,
    /// The domain of each client peer.
    pub domain_of: HashMap<u32, usize>,
    limits: HashMap<String, usize>,
}

impl Settings {
    /// The settings that a text says; None where it has a line of another kind.
    pub fn parse(text: &str) -> Option<Settings> {
        let limits = [("client-mitigations", 16), ("domain-mitigations", 64), ("clients", 8), ("aliases", 16), ("acls", 8), ("remembered", 64), ("observers", 8)];
        let limits = limits.iter().map(|(name, limit)| (name.to_string(), *limit)).collect();
        let mut settings = Settings { names: vec![], prefixes: vec![], domain_of: HashMap::new(), limits };
        for line in text.lines().filter(|line| !line.is_empty() && !line.starts_with('#')) {
            settings.take(&line.split(' ').collect::<Vec<_>>())?;
        }
        Some(settings)
    }

    fn take(&mut self, words: &[&str]) -> Option<()> {
        let domain_named = |name: &str| self.names.iter().position(|other| other == name);
        match *words {
            ["domain", name] => {
                self.names.push(name.to_string());
                self.prefixes.push(vec![]);
            }
            ["prefix", name, prefix] => self.prefixes[domain_named(name)?].push(Prefix::parse(prefix)?),
            ["client", peer, name] => {
                let domain = domain_named(name)?;
                self.domain_of.insert(peer.parse().ok()?, domain);
            }
            ["capacity", what, limit] => *self.limits.get_mut(what)? = limit.parse().ok()?,
            _ => return None,
        }
        Some(())
    }

    pub fn limit(&self, what: &str) -> usize {
        self.limits[what]
    }

    /// How many slots a half of the journal has: twice what a compaction keeps at most, and eight.
    pub fn slots(&self) -> usize {
        let clients = self.limit("clients");
        let of_domain = 2 * self.limit("domain-mitigations") + clients + clients * (self.limit("aliases") + self.limit("acls"));
        let peers = self.domain_of.len();
        2 * (self.names.len() * of_domain + self.limit("remembered") * peers + peers + 1) + 8
    }
}
