//! Gate sets: setting, removal, and which gate stands at a place.

use crate::Refusal;

pub const GATES: usize = 64;
pub const GATES_WORDS: usize = 3 * GATES + 1;
const RETURN: u32 = 0xFFFF_FFFF;

#[derive(Clone, Copy, Debug, PartialEq, Eq)]
pub enum Kind {
    Switch(u32),
    Return,
}

#[derive(Clone, Copy, Debug, PartialEq, Eq)]
pub struct Gate {
    pub domain: u32,
    pub address: u32,
    pub kind: Kind,
}

impl Gate {
    fn stands_at(&self, domain: u32, address: u32) -> bool {
        self.domain == domain && self.address == address
    }
}

/// An array of 64 gates, of which the first `count` are held.
#[derive(Clone, Debug, PartialEq, Eq)]
pub struct Gates {
    pub array: Vec<Gate>,
    pub count: u32,
}

impl Gates {
    /// A set of 193 words: 64 times domain, address, gate (0xFFFFFFFF return, else the destination), then the count.
    pub fn from_words(words: &[u32]) -> Gates {
        assert_eq!(words.len(), GATES_WORDS);
        let array = words[..3 * GATES].chunks(3).map(|gate| Gate {
            domain: gate[0],
            address: gate[1],
            kind: if gate[2] == RETURN { Kind::Return } else { Kind::Switch(gate[2]) },
        });
        Gates { array: array.collect(), count: words[3 * GATES] }
    }

    pub fn to_words(&self) -> Vec<u32> {
        let mut words = Vec::new();
        for gate in &self.array {
            let kind = match gate.kind {
                Kind::Switch(destination) => destination,
                Kind::Return => RETURN,
            };
            words.extend([gate.domain, gate.address, kind]);
        }
        words.push(self.count);
        words
    }

    /// The gates that the set holds, of a count in range.
    pub fn held(&self) -> &[Gate] {
        &self.array[..self.count as usize]
    }

    /// Of two gates at one place the earlier counts.
    pub fn at(&self, domain: u32, address: u32) -> Option<Kind> {
        self.held().iter().find(|gate| gate.stands_at(domain, address)).map(|gate| gate.kind)
    }

    fn place(&self, domain: u32, address: u32) -> Option<usize> {
        self.held().iter().position(|gate| gate.stands_at(domain, address))
    }

    /// Refusals 1, 18, 2, 11, 14, 12.
    pub fn set(&mut self, domains: u32, gate: Gate) -> Result<(), Refusal> {
        self.counted(domains)?;
        let destination_known = match gate.kind {
            Kind::Switch(destination) => destination < domains,
            Kind::Return => true,
        };
        if gate.domain >= domains || !destination_known {
            return Err(2);
        }
        aligned(gate.address)?;
        if gate.kind == Kind::Switch(gate.domain) {
            return Err(14);
        }
        match self.place(gate.domain, gate.address) {
            Some(place) => self.array[place] = gate,
            None if self.count == 64 => return Err(12),
            None => {
                self.array[self.count as usize] = gate;
                self.count += 1;
            }
        }
        Ok(())
    }

    /// Refusals 1, 18, 2, 11, 13.
    pub fn remove(&mut self, domains: u32, domain: u32, address: u32) -> Result<(), Refusal> {
        self.counted(domains)?;
        if domain >= domains {
            return Err(2);
        }
        aligned(address)?;
        let place = self.place(domain, address).ok_or(13u32)?;
        for later in place + 1..self.count as usize {
            self.array[later - 1] = self.array[later];
        }
        self.count -= 1;
        Ok(())
    }

    fn counted(&self, domains: u32) -> Result<(), Refusal> {
        if !(1..=4).contains(&domains) {
            return Err(1);
        }
        if self.count > 64 {
            return Err(18);
        }
        Ok(())
    }
}

fn aligned(address: u32) -> Result<(), Refusal> {
    if !address.is_multiple_of(4) {
        return Err(11);
    }
    Ok(())
}
