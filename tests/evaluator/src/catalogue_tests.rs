//! The catalogue: how few gates the functions need, what is wrong with a network, and programs with another opinion.

use crate::answer::{answer, Answer};
use crate::cases::Dealer;
use crate::catalogue::{fault, function, network, FUNCTIONS};
use crate::catalogue_counts::CatalogueCounts;
use crate::counts::Counts;
use crate::request::Request;
use crate::run::{run, Settings};
use crate::sheet;
use crate::table::{Edge, Gate, Network, Refusal};

/// How many requests of the catalogue the gate asks.
const ASKED: usize = 1350;

fn own(number: u32) -> &'static Network {
    network(number).unwrap()
}

/// No function needs more than four gates, and each network is one of its function.
#[test]
fn smallest_networks() {
    let mut sizes = [0; 8];
    for number in 0..FUNCTIONS as u32 {
        assert_eq!((function(own(number)), fault(number, &own(number).bytes())), (number, None));
        sizes[own(number).gates.len()] += 1;
    }
    assert_eq!(sizes, [8, 32, 64, 56, 96, 0, 0, 0]);
    assert_eq!([0, 255, 170, 85, 204, 240].map(|number| own(number).gates.len()), [0; 6]);
    assert_eq!([232, 23, 128, 1, 150, 105].map(|number| own(number).gates.len()), [1, 1, 2, 2, 3, 3]);
    assert_eq!([256, 65_535, 65_536, u32::MAX].map(|number| network(number).err()), [Some(Refusal::plain(17)); 4]);
}

/// Bit k of the number is the value under assignment k, and bit i-1 of k is input i.
#[test]
fn numbers_of_functions() {
    let of = |gates: [[u16; 3]; 1], output| function(&sheet::network(3, gates, &[output]));
    assert_eq!([of([[2, 4, 6]], 8), of([[2, 4, 6]], 9), of([[2, 4, 6]], 2), of([[2, 4, 6]], 7)], [232, 23, 170, 15]);
    assert_eq!([of([[0, 2, 4]], 8), of([[0, 4, 6]], 8), of([[0, 3, 6]], 8), of([[1, 2, 6]], 9)], [136, 192, 80, 5]);
    assert_eq!(function(&sheet::network(3, [[2, 4, 6], [2, 4, 7], [9, 10, 6]], &[12])), 150);
}

#[test]
fn what_is_wrong_with_a_network() {
    let told = |number, network: &Network| fault(number, &network.bytes()).unwrap_or_default();
    let adder = [[2, 4, 6], [2, 4, 7], [9, 10, 6]];
    assert_eq!(told(150, &sheet::network(3, adder, &[12])), "");
    assert_eq!(told(150, &sheet::network(3, adder, &[13])), "computes 105");
    assert_eq!(told(105, &sheet::network(3, adder, &[12])), "computes 150");
    assert_eq!(told(232, &sheet::network(3, adder, &[8])), "has a gate that its output does not reach");
    assert_eq!(told(150, &sheet::network(3, adder, &[12, 8])), "has 3 inputs and 2 outputs");
    assert_eq!(told(150, &sheet::network(4, [[2, 4, 6], [2, 4, 7], [11, 12, 6]], &[14])), "has 4 inputs and 1 outputs");
    assert_eq!(told(150, &sheet::network(3, [[2, 4, 6], [2, 4, 7], [9, 12, 6]], &[12])), "is refused 5 at 5 2");
    let chain = |gates: usize| {
        let gates = (0..gates).map(|at| Gate::of([2, 4, 6 + 2 * at as u16].map(Edge::of))).collect::<Vec<_>>();
        Network { inputs: 3, outputs: vec![Edge::plain(3 + gates.len())], gates }
    };
    assert_eq!([told(232, &chain(7)), told(232, &chain(8))], ["".to_string(), "has 8 gates".to_string()]);
    let mut block = chain(1);
    block.gates[0].block = 255;
    assert_eq!(told(232, &block), "has a gate of another block than 0");
}

#[test]
fn the_bytes_of_a_reply() {
    let request = Request::Catalogue(170, vec![9; 34]);
    assert_eq!(request.bytes()[..10], [25, 170, 0, 0, 0, 34, 0, 0, 0, 9]);
    let mut bytes = sheet::network(3, [], &[2]).bytes();
    bytes.extend([9, 9]);
    assert_eq!(answer(&request), Answer { refusal: None, numbers: vec![32], bytes });
    let refused = |number, length, refusal| {
        let own = Answer { refusal: Some(Refusal::plain(refusal)), numbers: vec![0], bytes: vec![9; length] };
        assert_eq!(answer(&Request::Catalogue(number, vec![9; length])), own);
    };
    refused(170, 31, 11);
    refused(170, 0, 11);
    for length in [0, 31, 32, 88, 200] {
        refused(256, length, 17);
        refused(u32::MAX, length, 17);
    }
}

/// The answer of a program that writes other networks than the own ones where its number is one of the catalogue.
fn writing(request: &Request, own: Answer, make: impl Fn(u32, &Network, usize) -> Network) -> Answer {
    let (Request::Catalogue(number, out), Ok(network)) = (request, request.network()) else {
        return own;
    };
    let (bytes, mut out) = (make(*number, &network, out.len()).bytes(), out.clone());
    match out.get_mut(..bytes.len()) {
        Some(place) => {
            place.copy_from_slice(&bytes);
            Answer { refusal: None, numbers: vec![bytes.len() as u32], bytes: out }
        }
        None => Answer { refusal: Some(Refusal::plain(11)), numbers: vec![0], bytes: out },
    }
}

/// A network with every gate's edges one place on.
fn turned(network: &Network) -> Network {
    let mut network = network.clone();
    network.gates.iter_mut().for_each(|gate| gate.edges.rotate_left(1));
    network
}

/// Runs against a program that answers so for as many requests of the catalogue as the gate asks, or until it is found out.
fn against(program: fn(&Request, Answer) -> Answer) -> Result<Counts, String> {
    let settings = Settings { seed: 3, count: ASKED, operations: vec![25] };
    let mut counts = Counts::default();
    let ended = run(&settings, &mut counts, &mut |request, _| Ok(program(request, answer(request)).bytes()));
    ended.map(|()| counts).map_err(|difference| difference.text)
}

/// Other networks of the same functions and as small are as good.
#[test]
fn another_choice_is_accepted() {
    let counts = against(|request, own| writing(request, own, |_, network, _| turned(network))).unwrap();
    assert_eq!(counts.never_met(&[25]), Vec::<String>::new());
}

/// A run in which something never came is told of it.
#[test]
fn what_never_came_is_told() {
    let never_met = |left_out: fn(u32, usize) -> bool| {
        let (mut dealer, mut counts) = (Dealer::new(1, &[25]), CatalogueCounts::default());
        for _ in 0..ASKED {
            let request = dealer.deal().request;
            let Request::Catalogue(number, out) = &request else { panic!("another operation") };
            if !left_out(*number, out.len()) {
                counts.note(&request);
            }
        }
        counts.never_met()
    };
    assert_eq!(never_met(|_, _| false), Vec::<String>::new());
    assert_eq!(never_met(|number, _| number == 256), ["never met: number 256, by operation 25"]);
    assert_eq!(never_met(|_, length| length == 50), ["never met: an out buffer of 50 bytes, by operation 25"]);
    let line = |room: &str| format!("never met: {room} with number 77, by operation 25");
    let rooms = ["an out buffer exactly full", "a longer out buffer", "an out buffer one byte short"].map(line);
    assert_eq!(never_met(|number, _| number == 77), rooms);
    let of_17 = |number: u32, length: usize| number > 255 && length < 32;
    assert_eq!(
        never_met(of_17),
        ["never met: no number of the catalogue, and out too short for any network, by operation 25"]
    );
}

/// The answer of a program that refuses otherwise.
fn refused(request: &Request, own: Answer, is: impl Fn(u32, &[u8], u32) -> Option<u32>) -> Answer {
    let Request::Catalogue(number, out) = request else {
        return own;
    };
    match is(*number, out, own.refusal.map_or(0, |refusal| refusal.number)) {
        Some(refusal) => Answer { refusal: Some(Refusal::plain(refusal)), numbers: vec![0], bytes: out.clone() },
        None => own,
    }
}

/// The answer to another number, where both are numbers of the catalogue.
fn as_of(request: &Request, own: Answer, other: impl Fn(u32) -> u32) -> Answer {
    match request {
        Request::Catalogue(number, out) => answer(&Request::Catalogue(other(*number), out.clone())),
        _ => own,
    }
}

#[test]
fn another_opinion_of_the_catalogue_is_found_out() {
    let slips: [fn(&Request, Answer) -> Answer; 25] = [
        // In one entry one edge is inverted, or names another node.
        |request, own| {
            writing(request, own, |number, network, _| {
                let mut network = network.clone();
                network
                    .gates
                    .iter_mut()
                    .take(usize::from(number == 150))
                    .for_each(|gate| gate.edges[1].inverted ^= true);
                network
            })
        },
        |request, own| {
            writing(request, own, |number, network, _| {
                let mut network = network.clone();
                network.gates.iter_mut().filter(|_| number == 232).for_each(|gate| gate.edges[2].node = 0);
                network
            })
        },
        // Two entries of the same length are exchanged.
        |request, own| as_of(request, own, |number| if [105, 150].contains(&number) { 255 - number } else { number }),
        |request, own| as_of(request, own, |number| if [1, 2].contains(&number) { 3 - number } else { number }),
        // One entry has a gate that nobody reads, before its output.
        |request, own| {
            writing(request, own, |number, network, _| {
                let mut network = network.clone();
                network.gates.extend((number == 85).then_some(Gate::of([2, 4, 6].map(Edge::of))));
                network
            })
        },
        // Entries are filled up to seven gates.
        |request, own| {
            writing(request, own, |_, network, _| {
                let mut network = network.clone();
                network.gates.resize(7, Gate::of([0, 0, 0].map(Edge::of)));
                network
            })
        },
        // One entry has a gate more than it needs.
        |request, own| {
            writing(request, own, |number, network, _| {
                let mut network = network.clone();
                if number == 170 {
                    network.gates.push(Gate::of([2, 2, 0].map(Edge::of)));
                    network.outputs = vec![Edge::plain(4)];
                }
                network
            })
        },
        // The outputs of all entries are inverted, or none is.
        |request, own| as_of(request, own, |number| if number < 256 { 255 - number } else { number }),
        |request, own| {
            writing(request, own, |_, network, _| {
                let mut network = network.clone();
                network.outputs[0].inverted = false;
                network
            })
        },
        // Bit k of the number is the value under assignment 7 - k; inputs are counted from the other end; bits are numbers from 1.
        |request, own| as_of(request, own, |number| u8::try_from(number).map_or(number, |it| it.reverse_bits().into())),
        |request, own| {
            as_of(request, own, |number| {
                let turned = |k: u32| [0, 4, 2, 6, 1, 5, 3, 7][k as usize];
                if number < 256 {
                    (0..8).map(|k| (number >> k & 1) << turned(k)).sum()
                } else {
                    number
                }
            })
        },
        |request, own| as_of(request, own, |number| if number < 256 { number.rotate_left(1) % 256 } else { number }),
        // Gates stand in the other order.
        |request, own| {
            writing(request, own, |_, network, _| {
                let mut network = network.clone();
                network.gates.reverse();
                network
            })
        },
        // A gate is of a block.
        |request, own| {
            writing(request, own, |number, network, _| {
                let mut network = network.clone();
                network.gates.iter_mut().filter(|_| number == 23).for_each(|gate| gate.block = 1);
                network
            })
        },
        // A longer buffer gets another network of the function.
        |request, own| {
            writing(
                request,
                own,
                |_, network, room| if room > network.used() { turned(network) } else { network.clone() },
            )
        },
        // 255 is refused, or 256 is not.
        |request, own| refused(request, own, |number, _, _| (number == 255).then_some(17)),
        |request, own| as_of(request, own, |number| if number == 256 { 255 } else { number }),
        // The number's low byte or its low 16 bits alone are looked at.
        |request, own| as_of(request, own, |number| number % 256),
        |request, own| as_of(request, own, |number| number % 65_536),
        // 11 comes before 17, where the buffer holds no network, or not every one.
        |request, own| refused(request, own, |_, out, refusal| (refusal == 17 && out.len() < 32).then_some(11)),
        |request, own| {
            refused(request, own, |_, out, refusal| (refusal == 17 && (32..88).contains(&out.len())).then_some(11))
        },
        // The buffer is wanted to be longer than the network, or long enough for any.
        |request, own| {
            let exactly = own.refusal.is_none() && own.numbers[0] as usize == own.bytes.len();
            refused(request, own, |_, _, _| exactly.then_some(11))
        },
        |request, own| refused(request, own, |_, out, refusal| (refusal == 0 && out.len() < 88).then_some(11)),
        // A byte past the network is cleared; a refused call writes what fits.
        |request, mut own| {
            if let (Request::Catalogue(..), Some(byte)) = (request, own.bytes.get_mut(own.numbers[0] as usize)) {
                *byte = if own.refusal.is_none() { 0 } else { *byte };
            }
            own
        },
        |request, mut own| {
            if let (Request::Catalogue(..), Some(Refusal { number: 11, .. }), Ok(network)) =
                (request, own.refusal, request.network())
            {
                let room = own.bytes.len();
                own.bytes.copy_from_slice(&network.bytes()[..room]);
            }
            own
        },
    ];
    for (number, slip) in slips.into_iter().enumerate() {
        let text = against(slip).err().unwrap_or_else(|| panic!("slip {number} was not found out"));
        assert!(text.contains("operation 25") && text.contains("expected") && text.contains("seed 3"), "{text}");
    }
}
