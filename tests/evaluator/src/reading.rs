//! A reading: lent records with the three counts that its holder claims for them.

use crate::table::{read, Network, Refusal};

#[derive(Clone, Debug)]
pub struct Reading {
    pub counts: [u32; 3],
    pub records: Vec<u8>,
}

impl Reading {
    /// The network that every call on the reading checks anew; its used length is that of its records.
    pub fn network(&self) -> Result<Network, Refusal> {
        read(&self.records, self.records.len() as u32, Some(self.counts))
    }
}
