//! The sheet of small tables, P1 to P10, and the cases beside it, with the specification's literal numbers.

use crate::answer::{answer, Answer};
use crate::at_once::{Asked, AtOnce};
use crate::reading::Reading;
use crate::request::{Request, Table};
use crate::rm3::{translate, Mode, Operation, Rm3};
use crate::script::{run, Progress};
use crate::step::{apply, Step};
use crate::table::{read, record_bytes, Edge, Gate, Network, Record, Refusal};
use crate::value::{depth, evaluate, outputs, size};

/// A gate of block 0.
fn gate(edges: [u16; 3]) -> Gate {
    Gate::of(edges.map(Edge::of))
}

pub fn network<const M: usize>(inputs: usize, gates: [[u16; 3]; M], outputs: &[u16]) -> Network {
    let gates = gates.map(gate).to_vec();
    Network { inputs, gates, outputs: outputs.iter().map(|&edge| Edge::of(edge)).collect() }
}

fn table(records: &[Record]) -> Table {
    let buffer = record_bytes(records);
    Table { used: buffer.len() as u32, buffer }
}

/// The table's network, or the three numbers of its refusal.
fn check(records: &[Record]) -> Result<Network, [u32; 3]> {
    table(records).network().map_err(|Refusal { number, record, edge }| [number, record, edge])
}

pub fn step(network: &Network, rule: u16, gate: u16) -> Result<Network, u32> {
    let result = apply(network, Step { rule, gate, a: 0, b: 0 }, 65_536);
    result.map_err(|refusal| refusal.number)
}

fn voter(network: &Network, gate: u16, a: u16, b: u16) -> Result<Network, u32> {
    let result = apply(network, Step { rule: 9, gate, a, b }, 65_536);
    result.map_err(|refusal| refusal.number)
}

fn values(network: &Network) -> Vec<u32> {
    (0..1 << network.inputs).map(|assignment| outputs(network, assignment)).collect()
}

fn rm3(inputs: usize, operations: &[[usize; 3]], outputs: &[usize]) -> Rm3 {
    let operations = operations.iter().map(|&operands| Operation { block: 0, operands }).collect();
    Rm3 { inputs, operations, outputs: outputs.to_vec() }
}

/// The network's RM3 network, which both modes make alike.
fn alike(network: &Network) -> Rm3 {
    let [once, anew] = [Mode::Once, Mode::Anew].map(|mode| translate(network, mode));
    assert_eq!(once, anew);
    once
}

fn adder() -> Network {
    network(3, [[2, 4, 6], [2, 4, 7], [9, 10, 6]], &[12, 8])
}

#[test]
fn p1() {
    let p1 = network(2, [[0, 2, 4]], &[6]);
    assert_eq!(values(&p1), [0, 0, 0, 1]);
    assert_eq!(alike(&p1), rm3(2, &[[2, 1, 3]], &[4]));
    let records = [[1, 0, 0, 0], [1, 0, 0, 0], [2, 0, 2, 4], [3, 6, 0, 0]];
    assert_eq!(check(&records), Ok(p1));
}

#[test]
fn p2_and_p3() {
    let p2 = network(3, [[2, 4, 6]], &[8]);
    assert_eq!(values(&p2), [0, 0, 0, 1, 0, 1, 1, 1]);
    assert_eq!(alike(&p2), rm3(3, &[[0, 3, 1], [2, 5, 4]], &[6]));
    let p3 = network(3, [[3, 5, 7]], &[8]);
    assert_eq!(alike(&p3), rm3(3, &[[0, 3, 1], [0, 4, 1], [5, 2, 6]], &[7]));
}

#[test]
fn p4_and_p5() {
    let p4 = network(1, [[2, 2, 0]], &[5]);
    assert_eq!(alike(&p4), rm3(1, &[[2, 1, 2], [0, 3, 1]], &[4]));
    let after = step(&p4, 2, 2).unwrap();
    assert_eq!(after, network(1, [[2, 2, 0]], &[3]));
    let swept = step(&after, 8, 0).unwrap();
    assert_eq!(swept, network(1, [], &[3]));
    assert_eq!(alike(&swept), rm3(1, &[[0, 2, 1]], &[3]));
    let p5 = network(1, [[2, 3, 0]], &[5]);
    assert_eq!(step(&p5, 10, 2), Ok(network(1, [[2, 3, 0]], &[1])));
}

#[test]
fn p6_and_p7() {
    let p6 = network(4, [[6, 4, 8], [2, 4, 10]], &[12]);
    let after = step(&p6, 3, 6).unwrap();
    assert_eq!(after, network(4, [[6, 4, 8], [6, 4, 2], [8, 4, 12]], &[14]));
    assert_eq!(step(&after, 8, 0), Ok(network(4, [[6, 4, 2], [8, 4, 10]], &[12])));
    let p7 = network(5, [[6, 8, 10], [2, 4, 12]], &[14]);
    let after = network(5, [[6, 8, 10], [2, 4, 6], [2, 4, 8], [14, 16, 10]], &[18]);
    assert_eq!(step(&p7, 4, 7), Ok(after));
}

#[test]
fn p8_and_its_rm3_listing() {
    assert_eq!(values(&adder()), [0, 1, 1, 2, 1, 2, 2, 3]);
    assert_eq!((size(&adder()), depth(&adder())), (3, 2));
    let listing = rm3(3, &[[0, 3, 1], [2, 5, 4], [2, 4, 3], [7, 6, 4]], &[8, 6]);
    assert_eq!((alike(&adder()), listing.depth()), (listing.clone(), 3));
    assert_eq!(Rm3::read(&listing.bytes()), Some(listing));
}

#[test]
fn p9_and_p10() {
    assert_eq!(check(&[]), Err([3, 0, 0]));
    assert_eq!(read(&[0; 12], 12, None), Err(Refusal::plain(1)));
}

#[test]
fn limits() {
    let sized = |inputs, gates| {
        let mut records = vec![[1, 0, 0, 0]; inputs];
        records.extend(vec![[2, 0, 1, 0]; gates]);
        records.push([3, 0, 0, 0]);
        check(&records).err()
    };
    assert_eq!((sized(32, 0), sized(33, 0)), (None, Some([3, 0, 0])));
    assert_eq!((sized(0, 1024), sized(0, 1025)), (None, Some([3, 0, 0])));
    let reading = |edge| check(&[[1, 0, 0, 0], [1, 0, 0, 0], [2, 0, 0, edge], [3, 0, 0, 0]]).err();
    assert_eq!((reading(6), reading(5)), (Some([5, 2, 3]), None));
}

#[test]
fn rule_3_at_the_limit() {
    let mut full = network(2, [[2, 4, 3], [3, 4, 6]], &[8]);
    full.gates.resize(1023, gate([0; 3]));
    assert_eq!(step(&full, 3, 4).map(|network| network.gates.len()), Ok(1024));
    full.gates.resize(1024, gate([0; 3]));
    assert_eq!(step(&full, 3, 4), Err(10));
    assert_eq!(step(&full, 3, 3), Err(9));
    assert_eq!(step(&full, 3, 2), Err(8));
    assert_eq!(step(&full, 11, 2), Err(7));
}

#[test]
fn order_of_refusals() {
    let mut forty = vec![[1, 0, 0, 0]; 40];
    forty.push([9, 0, 0, 0]);
    assert_eq!(check(&forty), Err([2, 40, 0]));
    assert_eq!(check(&[[2, 2, 0, 0]]), Err([3, 0, 0]));
    assert_eq!(check(&[[3, 60_000, 1, 0]]), Err([4, 0, 0]));
    assert_eq!(check(&[[2, 2, 0, 0], [3, 0, 1, 0]]), Err([5, 0, 1]));
}

/// Refusal 5 carries the first bad edge of the first bad record: gate 3 may read edges up to 5, an output up to 7.
#[test]
fn bad_edges() {
    let reading = |e1, e2, e3| check(&[[1, 0, 0, 0], [1, 0, 0, 0], [2, e1, e2, e3], [3, 6, 0, 0]]).err();
    let told = [([6, 5, 5], 1), ([5, 6, 5], 2), ([5, 5, 6], 3), ([7, 4, 99], 1), ([4, 7, 6], 2), ([5, 99, 0], 2)];
    for ([e1, e2, e3], edge) in told {
        assert_eq!(reading(e1, e2, e3), Some([5, 2, edge]), "({e1}, {e2}, {e3})");
    }
    assert_eq!((reading(6, 6, 6), reading(5, 5, 5)), (Some([5, 2, 1]), None));
    let outputs = |first, second| check(&[[1, 0, 0, 0], [2, 2, 3, 0], first, second]).err();
    assert_eq!(outputs([3, 5, 0, 0], [3, 6, 0, 0]), Some([5, 3, 1]));
    assert_eq!(outputs([3, 7, 0, 1], [3, 6, 0, 0]), Some([4, 2, 0]));
    assert_eq!(outputs([3, 7, 0, 0], [3, 6, 0, 1]), Some([5, 2, 1]));
    let gates = |first, second| check(&[[1, 0, 0, 0], first, second, [3, 99, 0, 0]]).err();
    assert_eq!(gates([2, 3, 3, 4], [2, 6, 0, 0]), Some([5, 1, 3]));
    assert_eq!(gates([2, 3, 3, 3], [2, 4, 6, 0]), Some([5, 2, 2]));
}

/// Every call passes the edge up, and writes nothing.
#[test]
fn bad_edge_of_every_call() {
    let records = [[1, 0, 0, 0], [2, 2, 4, 0], [3, 4, 0, 0]];
    let bad = || table(&records);
    let reading = || Reading { counts: [1, 1, 1], records: record_bytes(&records) };
    let at_once = |asked| Request::AtOnce(AtOnce { table: bad(), asked, places: vec![0x0909_0909_0909_0909] });
    let (step, bytes) = (Step::of([0, 0, 0, 0]), record_bytes(&records));
    let requests = [
        (Request::Check(bad()), vec![0, 0, 0], vec![]),
        (Request::Evaluate(bad(), 2), vec![0], vec![]),
        (Request::Report(bad()), vec![0, 0], vec![]),
        (Request::Step(bad(), step), vec![0], bytes.clone()),
        (Request::Script(bad(), vec![0]), vec![0, 24], bytes),
        (Request::Rm3(Mode::Anew, bad(), vec![9]), vec![0], vec![9]),
        (Request::Rm3(Mode::Once, bad(), vec![9]), vec![0], vec![9]),
        (at_once(Asked::Words(1)), vec![0], vec![9; 8]),
        (at_once(Asked::Totals), vec![0], vec![9; 8]),
        (Request::ReadingEvaluate(reading(), 2), vec![0], vec![]),
        (Request::ReadingReport(reading()), vec![0, 0], vec![]),
    ];
    for (request, numbers, bytes) in requests {
        let refusal = Some(Refusal { number: 5, record: 1, edge: 2 });
        assert_eq!(answer(&request), Answer { refusal, numbers, bytes }, "{request:?}");
        assert_eq!(answer(&request).bytes()[..12], [5, 0, 0, 0, 1, 0, 0, 0, 2, 0, 0, 0]);
    }
}

#[test]
fn rules_1_5_6_7() {
    let exchanged = apply(&network(3, [[2, 4, 7]], &[9]), Step { rule: 1, gate: 4, a: 2, b: 0 }, 65_536);
    assert_eq!(exchanged, Ok(network(3, [[7, 4, 2]], &[9])));
    let inward = network(4, [[2, 4, 6], [2, 4, 8], [10, 12, 3]], &[14]);
    assert_eq!(step(&inward, 5, 7), Ok(network(4, [[2, 4, 6], [2, 4, 8], [6, 8, 3], [2, 4, 14]], &[16])));
    let read_twice = network(1, [[2, 0, 1], [4, 5, 2]], &[4, 5, 6]);
    assert_eq!(step(&read_twice, 6, 2), Ok(network(1, [[3, 1, 0], [5, 4, 2]], &[5, 4, 6])));
    let twins = network(1, [[2, 0, 3], [2, 0, 3], [6, 7, 4]], &[7]);
    let shared = apply(&twins, Step { rule: 7, gate: 3, a: 2, b: 0 }, 65_536);
    assert_eq!(shared, Ok(network(1, [[2, 0, 3], [2, 0, 3], [4, 5, 4]], &[5])));
}

/// A voter where c is g: the second and third roots are g's edges to a and b. Its copies stand there all the same.
#[test]
fn voter_for_the_gate_itself() {
    let before = network(2, [[0, 2, 4]], &[6]);
    let after = network(2, [[0, 2, 3], [0, 2, 4], [0, 2, 4], [6, 2, 4]], &[12]);
    assert_eq!(voter(&before, 3, 1, 2), Ok(after));
    let inverted = network(2, [[5, 3, 3]], &[7]);
    let after = network(2, [[2, 3, 3], [5, 3, 3], [5, 3, 3], [6, 3, 5]], &[13]);
    assert_eq!(voter(&inverted, 3, 1, 2), Ok(after));
}

/// A voter for two gates that c reads inverted, and a gate above g that reads g and all below it.
#[test]
fn voter_for_gates() {
    let before = network(2, [[0, 2, 4], [1, 2, 4], [7, 9, 2], [11, 8, 5], [10, 13, 9]], &[13, 14, 6]);
    let first = [[0, 2, 4], [1, 2, 4], [13, 12, 2], [17, 13, 5]];
    let second = [[0, 2, 4], [1, 2, 4], [21, 23, 2], [20, 22, 5]];
    let third = [[0, 2, 4], [1, 2, 4], [29, 31, 2], [30, 30, 5]];
    let mut after = network(2, [[0, 2, 4], [1, 2, 4], [7, 9, 2]], &[37, 38, 6]);
    let copies = [first, second, third].into_iter().flatten().chain([[18, 26, 34], [10, 37, 9]]);
    after.gates.extend(copies.map(gate));
    assert_eq!(values(&before), values(&after));
    assert_eq!(voter(&before, 6, 3, 4), Ok(after));
}

/// c1 = M(a, b, x), c2 = M(a, b, y) and their exclusive or. With both replaced at once it would be false at a = 0, b = 1,
/// x = 1, y = 0; with c1 alone it keeps its value.
#[test]
fn voter_for_one_of_two_gates() {
    let before = network(4, [[2, 4, 6], [2, 4, 8], [10, 12, 1], [10, 12, 0], [14, 17, 0]], &[18]);
    let after = voter(&before, 9, 1, 2).unwrap();
    assert_eq!(values(&before), values(&after));
    assert_eq!((outputs(&before, 0b0110), outputs(&after, 0b0110)), (1, 1));
    let second = [[2, 4, 6], [2, 4, 8], [2, 30, 1], [2, 30, 0], [32, 35, 0]];
    let third = [[2, 4, 6], [2, 4, 8], [4, 40, 1], [4, 40, 0], [42, 45, 0]];
    let copies = [second, third].into_iter().flatten().chain([[26, 36, 46]]);
    assert_eq!(after.gates[9..], copies.map(gate).collect::<Vec<_>>());
    let mut both = after.clone();
    for (from, to) in [(15, Edge::of(2)), (20, Edge::of(4))] {
        let edges = both.edges_mut().filter(|edge| edge.node == from);
        edges.for_each(|edge| *edge = to.inverted_if(edge.inverted));
    }
    assert_eq!(outputs(&both, 0b0110), 0);
}

/// Gate 6 stands on level 3 and gate 7 on level 2: a voter for them is refused, while one for gates 4 and 7 is not.
#[test]
fn voter_and_levels() {
    let gates = [[4, 5, 0], [4, 5, 8], [8, 10, 2], [8, 8, 3], [2, 14, 12], [0, 8, 14], [0, 8, 19]];
    let before = network(3, gates, &[18]);
    assert_eq!(voter(&before, 9, 6, 7), Err(9));
    assert_eq!(voter(&before, 9, 4, 7).map(|after| after.gates.len()), Ok(25));
    assert_eq!(voter(&before, 9, 7, 6), Err(8));
    assert_eq!((size(&before), depth(&before)), (7, 3));
}

#[test]
fn assignments() {
    let all = network(32, [], &[64]);
    assert_eq!(evaluate(&all, u32::MAX), Ok(1));
    assert_eq!(evaluate(&network(31, [], &[0]), 1 << 31), Err(Refusal::plain(6)));
    assert_eq!(evaluate(&network(0, [], &[1]), 0), Ok(1));
    assert_eq!(evaluate(&network(0, [], &[1]), 1), Err(Refusal::plain(6)));
}

/// A script that grows, sweeps and is refused: zeros up to the greatest used length, garbage kept behind it.
#[test]
fn scripts() {
    let p6 = network(4, [[6, 4, 8], [2, 4, 10]], &[12]);
    let mut buffer = p6.bytes();
    buffer.extend([7; 20]);
    let script = record_bytes(&[[3, 6, 0, 0], [8, 0, 0, 0], [0, 0, 0, 0], [8, 0, 0, 0]]);
    let refusal = Some(Refusal::plain(7));
    assert_eq!(run(&mut buffer, 56, &script), Progress { taken: 2, refusal, used: 56 });
    let mut after = network(4, [[6, 4, 2], [8, 4, 10]], &[12]).bytes();
    after.extend([0; 8]);
    after.extend([7; 12]);
    assert_eq!(buffer, after);
    let odd = Progress { taken: 0, refusal: Some(Refusal::plain(12)), used: 56 };
    assert_eq!(run(&mut buffer, 56, &script[..11]), odd);
    let past = Progress { taken: 0, refusal: Some(Refusal::plain(1)), used: 800 };
    assert_eq!(run(&mut buffer, 800, &script[..11]), past);
}

#[test]
fn rm3_room() {
    let expected = alike(&adder()).bytes();
    for mode in [Mode::Once, Mode::Anew] {
        let ask = |room| answer(&Request::Rm3(mode, table(&adder().records()), vec![9; room]));
        let full = Answer { refusal: None, numbers: vec![72], bytes: expected.clone() };
        assert_eq!(ask(72), full);
        let refused = Answer { refusal: Some(Refusal::plain(11)), numbers: vec![0], bytes: vec![9; 71] };
        assert_eq!(ask(71), refused);
        assert_eq!(ask(75).bytes[72..], [9; 3]);
    }
}
