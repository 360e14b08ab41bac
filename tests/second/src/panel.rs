//! The panel's registers and the seven lines of a pulse.

#[derive(Clone, Copy, Debug, Default, PartialEq, Eq)]
pub struct Panel {
    pub comp: u64,
    pub sdr: u64,
    pub sc1: u64,
    pub sc2: u64,
    pub sc3: u64,
    pub mor: u64,
    pub key: u8,
    pub care: u8,
    pub target: u8,
    pub address: u64,
}

/// The lines raised in one pulse.
#[derive(Clone, Copy, Debug, Default, PartialEq, Eq)]
pub struct Lines {
    pub search: bool,
    pub read: bool,
    pub write: bool,
    pub add: bool,
    pub multiwrite: bool,
    pub multiadd: bool,
    pub complement: bool,
}

/// The lines' names, in the document's order.
pub const LINE_NAMES: [&str; 7] = [
    "search",
    "read",
    "write",
    "add",
    "multiwrite",
    "multiadd",
    "complement",
];

impl Lines {
    /// The line of a name, to be raised or looked at.
    pub fn named(&mut self, name: &[u8]) -> Option<&mut bool> {
        match name {
            b"search" => Some(&mut self.search),
            b"read" => Some(&mut self.read),
            b"write" => Some(&mut self.write),
            b"add" => Some(&mut self.add),
            b"multiwrite" => Some(&mut self.multiwrite),
            b"multiadd" => Some(&mut self.multiadd),
            b"complement" => Some(&mut self.complement),
            _ => None,
        }
    }

    /// How many lines are raised.
    pub fn raised(&self) -> usize {
        let all = [
            self.search,
            self.read,
            self.write,
            self.add,
            self.multiwrite,
            self.multiadd,
            self.complement,
        ];
        all.iter().filter(|line| **line).count()
    }
}
