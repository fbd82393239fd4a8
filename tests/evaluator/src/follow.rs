//! Following: a script that also says where each gate of its first table is now.

use crate::graph::{Graph, Probe};
use crate::request::Table;
use crate::script::{run_by, Progress};
use crate::step::take;
use crate::table::{Edge, Network, Refusal};

/// A script to be followed, its table, and the lent places.
#[derive(Clone, Debug)]
pub struct Follow {
    pub table: Table,
    pub script: Vec<u8>,
    pub places: Vec<u16>,
}

/// What became of each gate of the first table; none of one that was swept away.
pub type Probes = Vec<Option<Probe>>;

impl Probe {
    /// The edge that has the gate's first value now.
    pub fn edge(&self) -> Edge {
        Edge { node: self.node, inverted: self.inversions.len() % 2 == 1 }
    }
}

impl Follow {
    /// The first table, where steps may be asked of it: it is sound, the script has whole steps, and there is a place for each gate.
    pub fn first(&self) -> Result<Network, Refusal> {
        let network = self.table.network()?;
        if self.script.len() % 8 != 0 {
            return Err(Refusal::plain(12));
        }
        if self.places.len() < network.gates.len() {
            return Err(Refusal::plain(11));
        }
        Ok(network)
    }

    /// What the script does to the table in the buffer, what it replies, and what became of each gate; without gates where the
    /// first table is refused.
    pub fn run(&self, buffer: &mut [u8]) -> (Progress, Probes) {
        let used = self.table.used;
        let first = match self.first() {
            Ok(first) => first,
            Err(refusal) => return (Progress { taken: 0, refusal: Some(refusal), used }, vec![]),
        };
        let mut graph = Graph::of(&first);
        let step = |network: &Network, step, room| take(&mut graph, network, step, room);
        let progress = run_by(step, buffer, used, &self.script);
        let probes = (first.inputs + 1..first.nodes()).map(|gate| graph.probe(gate)).collect();
        (progress, probes)
    }

    /// The places as the call leaves them: a gate's edge, 0 for one that is gone, and what stood there past the last gate's.
    pub fn written(&self, probes: &Probes) -> Vec<u16> {
        let edges = probes.iter().map(|probe| probe.as_ref().map_or(0, |probe| probe.edge().number()));
        edges.chain(self.places.iter().copied().skip(probes.len())).collect()
    }
}
