//! The two modes of the translation, with the specification's literal numbers, and against another telling of the one that reuses helpers.

use crate::answer::{answer, Answer};
use crate::cases::networks;
use crate::needs::{needs, By, Need};
use crate::random::Random;
use crate::request::{Request, Table};
use crate::rm3::{translate, Mode, Operation, Rm3};
use crate::sheet::network;
use crate::table::{Network, Refusal};
use crate::value::{depth, outputs, some_assignments};

const MODES: [Mode; 2] = [Mode::Once, Mode::Anew];

/// The operations' operands and the outputs.
type Listing<'a> = (&'a [[usize; 3]], &'a [usize]);

/// Whether the network's two translations list so.
fn lists(network: &Network, once: Listing, anew: Listing) {
    for (mode, (operations, outputs)) in MODES.into_iter().zip([once, anew]) {
        let rm3 = translate(network, mode);
        let listed: Vec<_> = rm3.operations.iter().map(|operation| operation.operands).collect();
        assert_eq!((&listed[..], &rm3.outputs[..]), (operations, outputs), "{mode:?} {network:?}");
    }
}

/// The translation anew, with helpers left out: that of an earlier need of the same node is reused for a later one where `reuses`
/// says so.
pub fn merged(network: &Network, reuses: fn(&Need, &Need) -> bool) -> Rm3 {
    let (anew, needs) = (translate(network, Mode::Anew), needs(network));
    let mut rm3 = Rm3 { inputs: network.inputs, operations: Vec::new(), outputs: Vec::new() };
    let mut operand: Vec<usize> = (0..network.inputs + 2).collect();
    let mut helpers: Vec<(&Need, usize)> = Vec::new();
    let (mut left, mut gates) = (needs.iter().peekable(), 0);
    for &Operation { block, operands } in &anew.operations {
        let need = left.next_if(|need| match need.by {
            By::Output => gates == network.gates.len(),
            _ => gates == need.at,
        });
        let like = |need: &Need| helpers.iter().find(|(other, _)| other.node == need.node && reuses(other, need));
        let own = match need.and_then(like) {
            Some(&(_, helper)) => helper,
            None => {
                rm3.operations.push(Operation { block, operands: operands.map(|old| operand[old]) });
                network.inputs + 1 + rm3.operations.len()
            }
        };
        operand.push(own);
        match need {
            Some(need) => helpers.push((need, own)),
            None => gates += 1,
        }
    }
    rm3.outputs = anew.outputs.iter().map(|&old| operand[old]).collect();
    rm3
}

/// Plain middles: the second gate has the helper of the first, and so has an output.
#[test]
fn plain_middles() {
    let two = network(3, [[2, 4, 6], [6, 4, 8]], &[10, 5]);
    let once = [[0, 3, 1], [2, 5, 4], [4, 5, 6]];
    let anew = [[0, 3, 1], [2, 5, 4], [0, 3, 1], [4, 7, 6], [0, 3, 1]];
    lists(&two, (&once, &[7, 5]), (&anew, &[8, 9]));
}

/// An inverted edge behind another, after a plain middle, and the other way round.
#[test]
fn middles_and_edges() {
    let once = [[0, 3, 1], [2, 5, 4], [5, 2, 6]];
    let anew = [[0, 3, 1], [2, 5, 4], [0, 3, 1], [7, 2, 6]];
    lists(&network(3, [[2, 4, 6], [3, 5, 8]], &[10]), (&once, &[7]), (&anew, &[8]));
    let once = [[0, 3, 1], [4, 2, 5], [2, 5, 6]];
    let anew = [[0, 3, 1], [4, 2, 5], [0, 3, 1], [2, 7, 6]];
    lists(&network(3, [[3, 6, 5], [2, 4, 8]], &[10]), (&once, &[7]), (&anew, &[8]));
}

/// Within one gate a helper is for both places; the middle's own node may be the one.
#[test]
fn within_one_gate() {
    let once = [[0, 3, 1], [4, 2, 4]];
    let anew = [[0, 3, 1], [0, 3, 1], [4, 2, 5]];
    lists(&network(2, [[3, 5, 5]], &[6]), (&once, &[5]), (&anew, &[6]));
    let once = [[0, 2, 1], [3, 2, 3]];
    let anew = [[0, 2, 1], [0, 2, 1], [3, 2, 4], [0, 2, 1], [0, 2, 1]];
    lists(&network(1, [[3, 3, 3]], &[3, 3]), (&once, &[3, 3]), (&anew, &[6, 7]));
}

/// The helper that the gate makes is held for the second output.
#[test]
fn a_helper_that_is_held() {
    let once = [[0, 2, 1], [2, 4, 2], [0, 5, 1]];
    let anew = [[0, 2, 1], [2, 4, 2], [0, 5, 1], [0, 2, 1]];
    lists(&network(2, [[2, 2, 2]], &[7, 3]), (&once, &[6, 4]), (&anew, &[6, 7]));
}

/// A gate whose own operation reads as a helper is none, and an inverted middle takes the node itself, helper or not.
#[test]
fn what_is_no_helper() {
    let gate = [[0, 2, 1], [0, 2, 1]];
    lists(&network(1, [[0, 3, 1]], &[3, 4]), (&gate, &[4, 3]), (&gate, &[4, 3]));
    let once = [[0, 2, 1], [2, 3, 2], [0, 2, 1]];
    let anew = [[0, 2, 1], [2, 3, 2], [0, 2, 1], [0, 2, 1]];
    lists(&network(1, [[2, 2, 2], [3, 0, 1]], &[6, 3]), (&once, &[5, 3]), (&anew, &[5, 6]));
    let once = [[0, 2, 1], [0, 3, 1], [4, 2, 5], [5, 2, 3]];
    let anew = [[0, 2, 1], [0, 3, 1], [4, 2, 5], [0, 3, 1], [7, 2, 3]];
    lists(&network(2, [[3, 3, 5], [3, 5, 4]], &[8]), (&once, &[7]), (&anew, &[8]));
}

/// A helper has the block of the gate that first needs it, whoever needs it later; one that an output is the first to need has 0.
#[test]
fn blocks_of_helpers() {
    let of = |blocks: [u8; 3], outputs: &[u16]| {
        let mut network = network(3, [[2, 4, 6], [6, 4, 2], [3, 5, 7]], outputs);
        network.gates.iter_mut().zip(blocks).for_each(|(gate, block)| gate.block = block);
        MODES.map(|mode| translate(&network, mode).operations.iter().map(|each| each.block).collect::<Vec<_>>())
    };
    let [once, anew] = of([7, 0, 255], &[12, 5, 3, 3]);
    assert_eq!((once, anew), (vec![7, 7, 0, 255, 255, 0], vec![7, 7, 0, 0, 255, 255, 255, 0, 0, 0]));
    let [once, anew] = of([0, 9, 9], &[7, 12]);
    assert_eq!((once, anew), (vec![0, 0, 9, 9, 9], vec![0, 0, 9, 9, 9, 9, 9, 0]));
}

/// The mode alone decides whether a table fits.
#[test]
fn room_of_one_mode() {
    let bytes = network(2, [[3, 5, 5]], &[6]).bytes();
    let table = || Table { used: bytes.len() as u32, buffer: bytes.clone() };
    let ask = |mode, room| answer(&Request::Rm3(mode, table(), vec![9; room]));
    let refused = |room| Answer { refusal: Some(Refusal::plain(11)), numbers: vec![0], bytes: vec![9; room] };
    for room in [40, 47, 48] {
        let Answer { refusal, numbers, bytes } = ask(Mode::Once, room);
        assert_eq!((refusal, numbers), (None, vec![40]));
        assert_eq!(bytes[40..], vec![9; room - 40]);
    }
    assert_eq!(ask(Mode::Once, 39), refused(39));
    assert_eq!((ask(Mode::Anew, 40), ask(Mode::Anew, 47)), (refused(40), refused(47)));
    assert_eq!(ask(Mode::Anew, 48).numbers, [48]);
}

/// Where helpers are reused the table is that of helpers made anew with the repeated ones left out. It has the same depth and
/// values, and never more operations.
#[test]
fn the_modes_agree() {
    let mut random = Random::new(9);
    let mut fewer = 0;
    for turn in 0..3000 {
        let network = if turn % 10 == 0 { networks::any(&mut random) } else { networks::small(&mut random) };
        let [once, anew] = MODES.map(|mode| translate(&network, mode));
        assert_eq!(once, merged(&network, |_, _| true), "{network:?}");
        assert_eq!(anew, merged(&network, |_, _| false), "{network:?}");
        assert!(once.operations.len() <= anew.operations.len(), "{network:?}");
        assert!(anew.operations.len() <= 3 * network.gates.len() + network.outputs.len(), "{network:?}");
        assert_eq!(once.depth(), anew.depth(), "{network:?}");
        assert!(once.depth() <= 2 * depth(&network) + 1, "{network:?}");
        for assignment in some_assignments(&mut random, network.inputs) {
            let values = [once.values(assignment), anew.values(assignment)];
            assert_eq!(values, [outputs(&network, assignment); 2], "{network:?}");
        }
        fewer += usize::from(once.operations.len() < anew.operations.len());
    }
    assert!(fewer >= 800, "{fewer} tables with a helper that is reused");
}
