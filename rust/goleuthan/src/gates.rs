//! Gate sets. A set is the words that the library knows.

use crate::words;
use crate::Refusal;

/// Where the gates end, and their count stands.
const COUNT: usize = 192;
/// The word of a return gate; any other is a destination.
const RETURN: u32 = u32::MAX;

/// What a gate does.
#[derive(Clone, Copy, Debug, PartialEq, Eq, Hash)]
pub enum GateKind {
    /// Calls into a destination domain.
    Switch(u32),
    /// Goes back to the caller's domain.
    Return,
}

/// A gate at a domain and an address.
#[derive(Clone, Copy, Debug, PartialEq, Eq, Hash)]
pub struct Gate {
    /// The domain for which it stands.
    pub domain: u32,
    /// The address at which it stands.
    pub address: u32,
    /// What it does.
    pub kind: GateKind,
}

impl Gate {
    /// A gate's three words.
    fn of(words: &[u32]) -> Gate {
        let kind = if words[2] == RETURN { GateKind::Return } else { GateKind::Switch(words[2]) };
        Gate { domain: words[0], address: words[1], kind }
    }
}

/// A set of up to 64 gates.
#[derive(Clone, Debug, PartialEq, Eq)]
pub struct Gates {
    pub(crate) words: [u32; 193],
}

impl Default for Gates {
    fn default() -> Self {
        Gates::none()
    }
}

impl Gates {
    /// A set without gates.
    pub const fn none() -> Gates {
        Gates { words: [0; 193] }
    }

    /// A set of given words: 64 times domain, address, gate (0xFFFFFFFF return, else the destination), then the count.
    pub const fn from_words(words: [u32; 193]) -> Gates {
        Gates { words }
    }

    /// The words that the library knows it by.
    pub fn words(&self) -> &[u32; 193] {
        &self.words
    }

    /// How many gates it holds. Above 64 every call with this set is refused 18.
    pub fn count(&self) -> u32 {
        self.words[COUNT]
    }

    /// The gates that it holds, in their order.
    pub fn held(&self) -> impl DoubleEndedIterator<Item = Gate> + ExactSizeIterator + '_ {
        self.words[..COUNT].chunks_exact(3).take(self.count() as usize).map(Gate::of)
    }

    /// The gate that stands for a domain at an address: of two, the earlier.
    pub fn at(&self, domain: u32, address: u32) -> Option<Gate> {
        self.held().find(|gate| gate.domain == domain && gate.address == address)
    }

    /// Sets a gate to another domain, in a table of `domains` domains.
    pub fn set_switch(&mut self, domains: u32, domain: u32, address: u32, destination: u32) -> Result<(), Refusal> {
        Refusal::none_or(words::set_switch_gate(domains, &mut self.words, domain, address, destination))
    }

    /// Sets a gate back to the caller, in a table of `domains` domains.
    pub fn set_return(&mut self, domains: u32, domain: u32, address: u32) -> Result<(), Refusal> {
        Refusal::none_or(words::set_return_gate(domains, &mut self.words, domain, address))
    }

    /// Removes the gate that stands for a domain at an address; later ones move down.
    pub fn remove(&mut self, domains: u32, domain: u32, address: u32) -> Result<(), Refusal> {
        Refusal::none_or(words::remove_gate(domains, &mut self.words, domain, address))
    }
}
