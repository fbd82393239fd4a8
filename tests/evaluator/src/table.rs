//! The majority table: its bytes to a network, the check with refusals 1 to 5, and back to bytes.

pub const MOST_INPUTS: usize = 32;
pub const MOST_GATES: usize = 1024;
pub const MOST_OUTPUTS: usize = 32;

#[derive(Clone, Copy, PartialEq, Eq, Debug)]
pub struct Edge {
    pub node: usize,
    pub inverted: bool,
}

impl Edge {
    pub fn of(number: u16) -> Edge {
        Edge { node: usize::from(number / 2), inverted: number % 2 == 1 }
    }

    pub fn plain(node: usize) -> Edge {
        Edge { node, inverted: false }
    }

    pub fn number(self) -> u16 {
        self.node as u16 * 2 + u16::from(self.inverted)
    }

    /// This edge, turned round where `inverted` holds.
    pub fn inverted_if(self, inverted: bool) -> Edge {
        Edge { inverted: self.inverted != inverted, ..self }
    }
}

/// The three edges of a gate.
pub type Edges = [Edge; 3];

/// A gate with the number of the block that it belongs to.
#[derive(Clone, Copy, PartialEq, Eq, Debug)]
pub struct Gate {
    pub block: u8,
    pub edges: Edges,
}

impl Gate {
    /// A gate of block 0.
    pub fn of(edges: Edges) -> Gate {
        Gate { block: 0, edges }
    }
}

/// A record as its four numbers: kind and block, e1, e2, e3.
pub type Record = [u16; 4];

/// The record's kind, which is the low byte of its first number.
pub fn kind_of(record: &Record) -> u8 {
    record[0].to_le_bytes()[0]
}

/// The record's block number, which is the high byte of its first number.
pub fn block_of(record: &Record) -> u8 {
    record[0].to_le_bytes()[1]
}

/// The first number of a record.
pub fn of_kind_and_block(kind: u8, block: u8) -> u16 {
    u16::from_le_bytes([kind, block])
}

#[derive(Clone, PartialEq, Eq, Debug)]
pub struct Network {
    pub inputs: usize,
    pub gates: Vec<Gate>,
    pub outputs: Vec<Edge>,
}

#[derive(Clone, Copy, PartialEq, Eq, Debug)]
pub struct Refusal {
    pub number: u32,
    /// The record that 2, 4 and 5 carry, counted from 0; all others carry 0.
    pub record: u32,
    /// The edge that 5 carries, 1 to 3; all others carry 0.
    pub edge: u32,
}

impl Refusal {
    /// A refusal that carries no record.
    pub fn plain(number: u32) -> Refusal {
        Refusal { number, record: 0, edge: 0 }
    }

    /// A refusal that carries a record and no edge.
    fn at(number: u32, record: usize) -> Refusal {
        Refusal { number, record: record as u32, edge: 0 }
    }

    /// An edge that names a node it may not, by its place among the record's edges, counted from 0.
    fn bad_edge(record: usize, place: usize) -> Refusal {
        Refusal { number: 5, record: record as u32, edge: place as u32 + 1 }
    }
}

/// Every 8 whole bytes as four 16-bit numbers, low byte first.
pub fn records(bytes: &[u8]) -> Vec<Record> {
    let number = |eight: &[u8], place: usize| u16::from_le_bytes([eight[2 * place], eight[2 * place + 1]]);
    bytes.chunks_exact(8).map(|eight| [0, 1, 2, 3].map(|place| number(eight, place))).collect()
}

pub fn record_bytes(records: &[Record]) -> Vec<u8> {
    records.iter().flatten().flat_map(|number| number.to_le_bytes()).collect()
}

/// How many records of kinds 1, 2 and 3 there are.
pub fn census(records: &[Record]) -> [usize; 3] {
    [1, 2, 3].map(|kind| records.iter().filter(|record| kind_of(record) == kind).count())
}

/// The network in the first `used` bytes; where counts are claimed (a reading), they must be those of the records.
pub fn read(buffer: &[u8], used: u32, claimed: Option<[u32; 3]>) -> Result<Network, Refusal> {
    let used = used as usize;
    if used % 8 != 0 || used > buffer.len() {
        return Err(Refusal::plain(1));
    }
    let records = records(&buffer[..used]);
    let mut lowest = 1;
    for (at, record) in records.iter().enumerate() {
        let kind = kind_of(record);
        if kind < lowest || kind > 3 {
            return Err(Refusal::at(2, at));
        }
        lowest = kind;
    }
    let counts = census(&records);
    let [inputs, gates, outputs] = counts;
    let within = inputs <= MOST_INPUTS && gates <= MOST_GATES && (1..=MOST_OUTPUTS).contains(&outputs);
    if !within || claimed.is_some_and(|claimed| claimed.map(|count| count as usize) != counts) {
        return Err(Refusal::plain(3));
    }
    let mut network = Network { inputs, gates: Vec::new(), outputs: Vec::new() };
    for (at, record) in records.iter().enumerate() {
        let (kind, block, &[_, e1, e2, e3]) = (kind_of(record), block_of(record), record);
        let (zeros, edges, bound) = match kind {
            1 => (vec![u16::from(block), e1, e2, e3], vec![], 0),
            2 => (vec![], vec![e1, e2, e3], at + 1),
            _ => (vec![u16::from(block), e2, e3], vec![e1], inputs + gates + 1),
        };
        if zeros.iter().any(|&field| field != 0) {
            return Err(Refusal::at(4, at));
        }
        if let Some(place) = edges.iter().position(|&edge| Edge::of(edge).node >= bound) {
            return Err(Refusal::bad_edge(at, place));
        }
        match kind {
            1 => {}
            2 => network.gates.push(Gate { block, edges: [e1, e2, e3].map(Edge::of) }),
            _ => network.outputs.push(Edge::of(e1)),
        }
    }
    Ok(network)
}

impl Network {
    pub fn counts(&self) -> [u32; 3] {
        [self.inputs, self.gates.len(), self.outputs.len()].map(|count| count as u32)
    }

    /// The number of nodes with the constant; so also the number that a gate added last would have.
    pub fn nodes(&self) -> usize {
        1 + self.inputs + self.gates.len()
    }

    /// The length in bytes of the table.
    pub fn used(&self) -> usize {
        8 * (self.inputs + self.gates.len() + self.outputs.len())
    }

    /// The node as a gate, where it is one.
    pub fn gate(&self, node: usize) -> Option<Gate> {
        self.gates.get(node.checked_sub(self.inputs + 1)?).copied()
    }

    /// The three edges of a node that is a gate.
    pub fn edges(&self, node: usize) -> Option<Edges> {
        self.gate(node).map(|gate| gate.edges)
    }

    /// Every edge of the gates and the outputs, to be changed.
    pub fn edges_mut(&mut self) -> impl Iterator<Item = &mut Edge> {
        self.gates.iter_mut().flat_map(|gate| &mut gate.edges).chain(&mut self.outputs)
    }

    pub fn records(&self) -> Vec<Record> {
        let gates = self.gates.iter().map(|gate| {
            let [e1, e2, e3] = gate.edges.map(Edge::number);
            [of_kind_and_block(2, gate.block), e1, e2, e3]
        });
        let outputs = self.outputs.iter().map(|edge| [3, edge.number(), 0, 0]);
        vec![[1, 0, 0, 0]; self.inputs].into_iter().chain(gates).chain(outputs).collect()
    }

    pub fn bytes(&self) -> Vec<u8> {
        record_bytes(&self.records())
    }
}
