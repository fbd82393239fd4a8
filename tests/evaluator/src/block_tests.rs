//! Blocks: which records may have one, and what steps and the translation make of them.

use crate::rm3::{translate, Mode, Operation, Rm3};
use crate::sheet::network;
use crate::step::{apply, Step};
use crate::table::{read, record_bytes, records, Network, Record, Refusal};

/// The network with these blocks.
fn of_blocks<const M: usize>(mut network: Network, blocks: [u8; M]) -> Network {
    assert_eq!(network.gates.len(), M);
    network.gates.iter_mut().zip(blocks).for_each(|(gate, block)| gate.block = block);
    network
}

pub fn blocks(network: &Network) -> Vec<u8> {
    network.gates.iter().map(|gate| gate.block).collect()
}

fn check(records: &[Record]) -> Result<Network, [u32; 3]> {
    let buffer = record_bytes(records);
    read(&buffer, buffer.len() as u32, None).map_err(|Refusal { number, record, edge }| [number, record, edge])
}

/// The blocks after a step, or the number of its refusal.
fn stepped(before: &Network, fields: [u16; 4]) -> Result<Vec<u8>, u32> {
    let after = apply(before, Step::of(fields), 65_536);
    after.map(|after| blocks(&after)).map_err(|refusal| refusal.number)
}

/// A gate's block is the high byte of its kind; tables without one read as block 0.
#[test]
fn blocks_of_records() {
    let two = |first, second| vec![[1, 0, 0, 0], [first, 2, 3, 0], [second, 4, 2, 1], [3, 6, 0, 0]];
    let plain = network(1, [[2, 3, 0], [4, 2, 1]], &[6]);
    assert_eq!(check(&two(2, 2)), Ok(plain.clone()));
    for [first, second] in [[0, 1], [1, 0], [255, 1], [1, 255], [255, 255], [128, 127]] {
        let records = two(256 * u16::from(first) + 2, 256 * u16::from(second) + 2);
        let network = of_blocks(plain.clone(), [first, second]);
        assert_eq!(network.records(), records);
        assert_eq!(check(&records), Ok(network));
    }
}

/// Refusal 2 looks at the low byte, also in the order of kinds; 4 is for a block on an input or an output, before 5.
#[test]
fn refusals_of_blocks() {
    let three = |input, gate, output| check(&[[input, 0, 0, 0], [gate, 2, 3, 0], [output, 4, 0, 0]]).err();
    assert_eq!((three(1, 0x0102, 3), three(1, 0xFF02, 3)), (None, None));
    for kind in [0x0100, 0x0104, 0x0200, 0x0300, 0xFF00, 0xFFFF, 0x0182] {
        assert_eq!(three(kind, 2, 3), Some([2, 0, 0]), "{kind:#x}");
        assert_eq!(three(1, kind, 3), Some([2, 1, 0]), "{kind:#x}");
        assert_eq!(three(1, 2, kind), Some([2, 2, 0]), "{kind:#x}");
    }
    for block in [0x0100, 0xFF00, 0x8000] {
        assert_eq!(three(block + 1, 2, 3), Some([4, 0, 0]));
        assert_eq!(three(1, 2, block + 3), Some([4, 2, 0]));
        assert_eq!((three(1, block + 1, 3), three(1, block + 3, 3)), (Some([4, 1, 0]), Some([4, 1, 0])));
        assert_eq!((three(block + 2, 1, 3), three(1, 3, block + 2)), (Some([2, 1, 0]), Some([2, 2, 0])));
    }
    assert_eq!(check(&[[0x0103, 99, 0, 0]]), Err([4, 0, 0]));
    assert_eq!(check(&[[0x0102, 99, 0, 0], [0x0103, 0, 0, 0]]), Err([5, 0, 1]));
    assert_eq!(check(&[[0x0101, 0, 0, 0], [0x0102, 0, 0, 0]]), Err([3, 0, 0]));
}

/// Steps keep the blocks of the gates that are there, and what they insert takes g's.
#[test]
fn blocks_after_a_step() {
    let before = of_blocks(network(4, [[6, 4, 8], [2, 4, 10], [12, 13, 2]], &[14]), [7, 1, 9]);
    assert_eq!(stepped(&before, [1, 6, 1, 0]), Ok(vec![7, 1, 9]));
    assert_eq!(stepped(&before, [3, 6, 0, 0]), Ok(vec![7, 1, 1, 9]));
    assert_eq!(stepped(&before, [4, 6, 0, 0]), Ok(vec![7, 1, 1, 1, 9]));
    assert_eq!(stepped(&before, [6, 5, 0, 0]), Ok(vec![7, 1, 9]));
    assert_eq!(stepped(&before, [10, 7, 0, 0]), Ok(vec![7, 1, 9]));
    let inward = of_blocks(network(4, [[2, 4, 6], [2, 4, 8], [10, 12, 3]], &[14]), [255, 0, 5]);
    assert_eq!(stepped(&inward, [5, 7, 0, 0]), Ok(vec![255, 0, 5, 5]));
    assert_eq!(stepped(&inward, [2, 7, 0, 0]), Err(9));
    let unread = of_blocks(network(1, [[2, 2, 0], [2, 3, 0], [6, 0, 1]], &[8, 2]), [3, 4, 5]);
    assert_eq!(stepped(&unread, [8, 0, 0, 0]), Ok(vec![4, 5]));
    assert_eq!(stepped(&unread, [2, 2, 0, 0]), Ok(vec![3, 4, 5]));
}

/// All copies of a voter take g's block, whichever gates they copy.
#[test]
fn blocks_of_a_voter() {
    let gates = [[0, 2, 4], [1, 2, 4], [7, 9, 2], [11, 8, 4], [12, 6, 0]];
    let before = of_blocks(network(2, gates, &[12, 9]), [0, 1, 2, 255, 4]);
    let mut after = vec![0, 1, 2];
    after.extend([255; 13]);
    after.push(4);
    assert_eq!(stepped(&before, [9, 6, 3, 4]), Ok(after));
}

/// Share needs equal blocks as well as equal edges.
#[test]
fn share_across_blocks() {
    let twins = |blocks| of_blocks(network(1, [[2, 0, 3], [2, 0, 3], [2, 0, 3]], &[8]), blocks);
    assert_eq!(stepped(&twins([1, 1, 0]), [7, 3, 2, 0]), Ok(vec![1, 1, 0]));
    assert_eq!(stepped(&twins([1, 0, 1]), [7, 4, 2, 0]), Ok(vec![1, 0, 1]));
    assert_eq!(stepped(&twins([1, 0, 1]), [7, 4, 3, 0]), Err(9));
    for [a, g] in [[0, 1], [1, 0], [0, 255], [255, 127], [1, 3]] {
        assert_eq!(stepped(&twins([a, g, 0]), [7, 3, 2, 0]), Err(9));
        assert_eq!(stepped(&twins([a, g, 0]), [7, 3, 3, 0]), Err(8));
    }
}

/// No rule has a block.
#[test]
fn rules_have_no_high_byte() {
    let before = network(2, [[2, 2, 4], [2, 4, 6]], &[8]);
    for rule in 1..=10 {
        assert_eq!(stepped(&before, [256 + rule, 4, 0, 0]), Err(7));
        assert_eq!(stepped(&before, [0xFF00 + rule, 0, 0, 0]), Err(7));
    }
}

/// A gate's operation and its helpers have its block, an output's helper has 0, where each is made anew.
#[test]
fn blocks_of_the_translation() {
    let before = of_blocks(network(3, [[2, 4, 6], [3, 5, 7], [0, 8, 10]], &[13, 12, 3, 0]), [1, 255, 0]);
    let Rm3 { operations, .. } = translate(&before, Mode::Anew);
    let listed = [
        (1, [0, 3, 1]),
        (1, [2, 5, 4]),
        (255, [0, 3, 1]),
        (255, [0, 4, 1]),
        (255, [7, 2, 8]),
        (0, [6, 1, 9]),
        (0, [0, 10, 1]),
        (0, [0, 2, 1]),
    ];
    assert_eq!(operations, listed.map(|(block, operands)| Operation { block, operands }));
    let bytes = translate(&before, Mode::Anew).bytes();
    let kinds: Vec<u16> = records(&bytes).iter().map(|record| record[0]).collect();
    let high = [1, 1, 255, 255, 255, 0, 0, 0].map(|block| 256 * block + 4);
    assert_eq!(kinds, [&[1; 3], &high[..], &[3; 4]].concat());
    assert_eq!(Rm3::read(&bytes), Some(translate(&before, Mode::Anew)));
}
