//! RM3: the translation of a network in its two modes, and a reader and evaluator of RM3 bytes.

use crate::table::{block_of, kind_of, of_kind_and_block, record_bytes, records, Edge, Gate, Network};
use std::collections::HashMap;

/// An operation, worth the majority of x, not y and z, with the number of the block that it belongs to.
#[derive(Clone, Copy, PartialEq, Eq, Debug)]
pub struct Operation {
    pub block: u8,
    pub operands: [usize; 3],
}

/// Operands: 0 false, 1 true, then the inputs from 2, then the operations.
#[derive(Clone, PartialEq, Eq, Debug)]
pub struct Rm3 {
    pub inputs: usize,
    pub operations: Vec<Operation>,
    pub outputs: Vec<usize>,
}

#[derive(Clone, Copy, PartialEq, Eq, Debug)]
pub enum Class {
    Constant,
    Plain,
    Inverted,
}

pub fn class(edge: Edge) -> Class {
    match (edge.node, edge.inverted) {
        (0, _) => Class::Constant,
        (_, false) => Class::Plain,
        (_, true) => Class::Inverted,
    }
}

/// The middle place of a gate, counted from 0.
pub fn middle(gate: &Gate) -> usize {
    let first = |wanted| gate.edges.iter().position(|&edge| class(edge) == wanted);
    first(Class::Inverted).or(first(Class::Constant)).unwrap_or(1)
}

/// Whether a helper is reused.
#[derive(Clone, Copy, PartialEq, Eq, Debug)]
pub enum Mode {
    /// A node's helper is made at the first need of it, and reused after.
    Once,
    /// Each need makes a helper of its own.
    Anew,
}

impl Rm3 {
    /// The RM3 network in these bytes, or none where they are no RM3 table.
    pub fn read(bytes: &[u8]) -> Option<Rm3> {
        let records = records(bytes);
        let of_kind = |kind| records.iter().filter(move |record| kind_of(record) == kind);
        let inputs = of_kind(1).count();
        let operation = |record| {
            let &[_, x, y, z] = record;
            Operation { block: block_of(record), operands: [x, y, z].map(usize::from) }
        };
        let operations: Vec<_> = of_kind(4).map(operation).collect();
        let outputs: Vec<_> = of_kind(3).map(|record| usize::from(record[1])).collect();
        let network = Rm3 { inputs, operations, outputs };
        let lower =
            |(at, operation): (usize, &Operation)| operation.operands.iter().all(|&operand| operand < inputs + 2 + at);
        let bound = inputs + 2 + network.operations.len();
        let sound =
            network.operations.iter().enumerate().all(lower) && network.outputs.iter().all(|&operand| operand < bound);
        (sound && network.bytes() == bytes).then_some(network)
    }

    pub fn bytes(&self) -> Vec<u8> {
        let operations = self.operations.iter().map(|operation| {
            let [x, y, z] = operation.operands.map(|operand| operand as u16);
            [of_kind_and_block(4, operation.block), x, y, z]
        });
        let outputs = self.outputs.iter().map(|&operand| [3, operand as u16, 0, 0]);
        let records: Vec<_> = vec![[1, 0, 0, 0]; self.inputs].into_iter().chain(operations).chain(outputs).collect();
        record_bytes(&records)
    }

    /// The outputs' number under an assignment: an operation is worth the majority of x, not y, z.
    pub fn values(&self, assignment: u32) -> u32 {
        let inputs = (0..self.inputs).map(|place| (assignment >> place) & 1 == 1);
        let mut values: Vec<bool> = [false, true].into_iter().chain(inputs).collect();
        for [x, y, z] in self.operations.iter().map(|operation| operation.operands) {
            let three = [values[x], !values[y], values[z]];
            values.push(three.into_iter().filter(|&value| value).count() >= 2);
        }
        let bits = self.outputs.iter().enumerate();
        bits.map(|(place, &operand)| u32::from(values[operand]) << place).sum()
    }

    /// The level of each operand.
    fn levels(&self) -> Vec<u32> {
        let mut levels = vec![0; self.inputs + 2];
        for operation in &self.operations {
            levels.push(1 + operation.operands.map(|operand| levels[operand]).into_iter().max().unwrap_or(0));
        }
        levels
    }

    /// The highest level among the operands that outputs name.
    pub fn depth(&self) -> u32 {
        let levels = self.levels();
        self.outputs.iter().map(|&operand| levels[operand]).max().unwrap_or(0)
    }

    /// The highest level of any operation, reached by an output or not.
    pub fn highest_level(&self) -> u32 {
        self.levels().into_iter().max().unwrap_or(0)
    }
}

/// A translation under way.
struct Translation {
    mode: Mode,
    rm3: Rm3,
    /// The operand of each node that there is so far.
    operand: Vec<usize>,
    /// The operand of a node's helper, for the nodes that have one.
    helper: HashMap<usize, usize>,
}

impl Translation {
    /// Adds an operation and gives its operand number.
    fn add(&mut self, block: u8, operands: [usize; 3]) -> usize {
        self.rm3.operations.push(Operation { block, operands });
        self.rm3.inputs + 1 + self.rm3.operations.len()
    }

    /// The operand of a node's helper; where one is made, it belongs to this block.
    fn helper(&mut self, block: u8, node: usize) -> usize {
        if let (Mode::Once, Some(&helper)) = (self.mode, self.helper.get(&node)) {
            return helper;
        }
        let helper = self.add(block, [0, self.operand[node], 1]);
        self.helper.insert(node, helper);
        helper
    }

    /// Adds the helpers of one gate, which belong to its block, and its operation.
    fn add_gate(&mut self, gate: &Gate) {
        let middle = middle(gate);
        let mut operands = [0; 3];
        for (place, &edge) in gate.edges.iter().enumerate() {
            operands[place] = match (class(edge), place == middle) {
                (Class::Constant, is_middle) => usize::from(edge.inverted != is_middle),
                (Class::Plain, false) | (Class::Inverted, true) => self.operand[edge.node],
                (Class::Plain, true) | (Class::Inverted, false) => self.helper(gate.block, edge.node),
            };
        }
        let others = [[1, 2], [0, 2], [0, 1]][middle];
        let own = self.add(gate.block, [operands[others[0]], operands[middle], operands[others[1]]]);
        self.operand.push(own);
    }

    /// Adds an output, with its helper, which belongs to block 0.
    fn add_output(&mut self, edge: Edge) {
        let own = match class(edge) {
            Class::Constant => usize::from(edge.inverted),
            Class::Plain => self.operand[edge.node],
            Class::Inverted => self.helper(0, edge.node),
        };
        self.rm3.outputs.push(own);
    }
}

pub fn translate(network: &Network, mode: Mode) -> Rm3 {
    let rm3 = Rm3 { inputs: network.inputs, operations: Vec::new(), outputs: Vec::new() };
    let operand = [0].into_iter().chain(2..network.inputs + 2).collect();
    let mut translation = Translation { mode, rm3, operand, helper: HashMap::new() };
    network.gates.iter().for_each(|gate| translation.add_gate(gate));
    network.outputs.iter().for_each(|&edge| translation.add_output(edge));
    translation.rm3
}
