//! That a program with another opinion of words or of totals is found out.

use crate::answer::Answer;
use crate::at_once::{told, Asked, AtOnce};
use crate::request::{place_bytes, Request};
use crate::table::{Edge, Gate, Network};
use crate::tests::against;
use crate::value::outputs;

/// The answer of a program that leaves these places in a request that is accepted.
fn leaving(request: &Request, own: Answer, wanted: u8, leave: fn(&AtOnce, &Network, &mut [u64])) -> Answer {
    let (Request::AtOnce(at_once), true) = (request, request.operation() == wanted) else {
        return own;
    };
    let Ok(network) = at_once.network() else {
        return own;
    };
    let mut places = at_once.written(&network);
    leave(at_once, &network, &mut places);
    Answer { bytes: place_bytes(&places), ..own }
}

/// The same of a program that tells each output's number from another network, or from another first assignment.
fn telling(request: &Request, own: Answer, wanted: u8, tell: fn(&Network, Asked) -> Vec<u64>) -> Answer {
    let (Request::AtOnce(at_once), true) = (request, request.operation() == wanted) else {
        return own;
    };
    let Ok(network) = at_once.network() else {
        return own;
    };
    let mut places = at_once.places.clone();
    let numbers = tell(&network, at_once.asked);
    places[..numbers.len()].copy_from_slice(&numbers);
    Answer { bytes: place_bytes(&places), ..own }
}

/// The network with the inputs from this one on taken away, which are false then.
pub fn cut(network: &Network, inputs: usize) -> Network {
    let gone = network.inputs - inputs;
    let mut cut = Network { inputs, ..network.clone() };
    cut.edges_mut().for_each(|edge| {
        edge.node = match edge.node {
            node if node <= inputs => node,
            node if node <= network.inputs => 0,
            node => node - gone,
        }
    });
    cut
}

fn without_inversion(network: &Network, outputs: bool, gates: bool) -> Network {
    let plain = |edge: Edge| Edge { inverted: edge.inverted && edge.node == 0, ..edge };
    Network {
        inputs: network.inputs,
        gates: match gates {
            true => network.gates.iter().map(|gate| Gate { edges: gate.edges.map(plain), ..*gate }).collect(),
            false => network.gates.clone(),
        },
        outputs: match outputs {
            true => network.outputs.iter().map(|&edge| plain(edge)).collect(),
            false => network.outputs.clone(),
        },
    }
}

pub fn found_out(slips: &[fn(&Request, Answer) -> Answer]) {
    for (number, slip) in slips.iter().enumerate() {
        let text = against(*slip).err().unwrap_or_else(|| panic!("slip {number} was not found out"));
        assert!(
            text.contains("expected") && (text.contains("words") || text.contains("totals")),
            "slip {number}: {text}"
        );
    }
}

/// How many assignments a word tells.
fn width(network: &Network) -> u32 {
    1 << network.inputs.min(6)
}

#[test]
fn another_opinion_of_words_is_found_out() {
    found_out(&[
        // The bits are told from the other end, of the word or of its assignments.
        |request, own| {
            leaving(request, own, 22, |_, network, places| {
                places.iter_mut().take(network.outputs.len()).for_each(|place| *place = place.reverse_bits());
            })
        },
        |request, own| {
            leaving(request, own, 22, |_, network, places| {
                let turn = |place: &mut u64| *place = place.reverse_bits() >> (64 - width(network));
                places.iter_mut().take(network.outputs.len()).for_each(turn);
            })
        },
        // The first assignment is left out: at all, or from one of its bits up.
        |request, own| telling(request, own, 22, |network, _| told(network, Asked::Words(0))),
        |request, own| {
            telling(request, own, 22, |network, asked| match asked {
                Asked::Words(first) => told(network, Asked::Words(first & 0x7fff)),
                asked => told(network, asked),
            })
        },
        |request, own| {
            telling(request, own, 22, |network, asked| match asked {
                Asked::Words(first) => told(network, Asked::Words(first & !0x100)),
                asked => told(network, asked),
            })
        },
        // It is the number of the word.
        |request, own| {
            telling(request, own, 22, |network, asked| match asked {
                Asked::Words(first) => told(network, Asked::Words(first / 64 * 4096 % (1 << network.inputs))),
                asked => told(network, asked),
            })
        },
        // Two of the six inputs of a word change places, or one of the others takes its turn among them.
        |request, own| {
            telling(request, own, 22, |network, asked| {
                let mut other = network.clone();
                other
                    .edges_mut()
                    .filter(|edge| (1..=2).contains(&edge.node) && network.inputs > 1)
                    .for_each(|edge| edge.node = 3 - edge.node);
                told(&other, asked)
            })
        },
        |request, own| {
            telling(request, own, 22, |network, asked| {
                let mut other = network.clone();
                other.edges_mut().filter(|edge| edge.node == 7 && network.inputs > 6).for_each(|edge| edge.node = 6);
                told(&other, asked)
            })
        },
        // Past 2^n stands what comes again, or what is true of none.
        |request, own| {
            leaving(request, own, 22, |_, network, places| {
                let bits = width(network);
                for place in places.iter_mut().take(network.outputs.len()) {
                    *place = (0..64).map(|k| (*place >> (k % bits) & 1) << k).sum();
                }
            })
        },
        |request, own| {
            leaving(request, own, 22, |_, network, places| {
                let (bits, none) = (width(network), outputs(network, 0));
                for (at, place) in places.iter_mut().enumerate().take(network.outputs.len()) {
                    *place |= (bits..64).map(|k| u64::from(none >> at & 1) << k).sum::<u64>();
                }
            })
        },
        // The inverse of an output is lost, or that of a gate's edge.
        |request, own| {
            telling(request, own, 22, |network, asked| told(&without_inversion(network, true, false), asked))
        },
        |request, own| {
            telling(request, own, 22, |network, asked| told(&without_inversion(network, false, true), asked))
        },
        // The word of another output.
        |request, own| leaving(request, own, 22, |_, network, places| places[..network.outputs.len()].rotate_left(1)),
        |request, own| leaving(request, own, 22, |_, network, places| places[..network.outputs.len()].reverse()),
        // A place past the outputs' is written; the reply is the number of places, or of words.
        |request, own| {
            leaving(request, own, 22, |_, network, places| {
                if let Some(place) = places.get_mut(network.outputs.len()) {
                    *place = 0;
                }
            })
        },
        |request, own| match request {
            Request::AtOnce(at_once) if own.refusal.is_none() => {
                Answer { numbers: vec![at_once.places.len() as u32], ..own }
            }
            _ => own,
        },
        // A word of 32 bits.
        |request, own| {
            leaving(request, own, 22, |_, network, places| {
                places.iter_mut().take(network.outputs.len()).for_each(|place| *place &= 0xffff_ffff);
            })
        },
    ]);
}

#[test]
fn another_opinion_of_totals_is_found_out() {
    found_out(&[
        // Cleared bits are counted.
        |request, own| {
            leaving(request, own, 23, |_, network, places| {
                places.iter_mut().take(network.outputs.len()).for_each(|place| *place = (1 << network.inputs) - *place);
            })
        },
        // Of fewer than six inputs all 64 bits are counted, as what comes again or as what is true of none.
        |request, own| {
            leaving(request, own, 23, |_, network, places| {
                places
                    .iter_mut()
                    .take(network.outputs.len())
                    .for_each(|place| *place *= u64::from(64 / width(network)));
            })
        },
        |request, own| {
            leaving(request, own, 23, |_, network, places| {
                let (more, none) = (u64::from(64 - width(network)), outputs(network, 0));
                for (at, place) in places.iter_mut().enumerate().take(network.outputs.len()) {
                    *place += more * u64::from(none >> at & 1);
                }
            })
        },
        // The first word alone is counted, or all but the last, or some inputs are left out.
        |request, own| {
            telling(request, own, 23, |network, _| {
                told(network, Asked::Words(0)).into_iter().map(|word| u64::from(word.count_ones())).collect()
            })
        },
        |request, own| {
            leaving(request, own, 23, |_, network, places| {
                let words = told(network, Asked::Words((1 << network.inputs) - width(network)));
                places.iter_mut().zip(words).for_each(|(place, word)| *place -= u64::from(word.count_ones()));
            })
        },
        |request, own| {
            telling(request, own, 23, |network, asked| {
                let inputs = network.inputs.min(15);
                let twice = u64::from(network.inputs > inputs) + 1;
                told(&cut(network, inputs), asked).into_iter().map(|total| total * twice).collect()
            })
        },
        // A total of 16 bits.
        |request, own| {
            leaving(request, own, 23, |_, network, places| {
                places.iter_mut().take(network.outputs.len()).for_each(|place| *place &= 0xffff);
            })
        },
        // The total of another output, of all outputs, and one that goes on from the place before it or from what stood there.
        |request, own| leaving(request, own, 23, |_, network, places| places[..network.outputs.len()].rotate_left(1)),
        |request, own| {
            leaving(request, own, 23, |_, network, places| {
                let all = places[..network.outputs.len()].iter().sum();
                places[..network.outputs.len()].fill(all);
            })
        },
        |request, own| {
            leaving(request, own, 23, |_, network, places| {
                (1..network.outputs.len()).for_each(|at| places[at] += places[at - 1]);
            })
        },
        |request, own| {
            leaving(request, own, 23, |at_once, network, places| {
                let stood = at_once.places.iter().take(network.outputs.len());
                places.iter_mut().zip(stood).for_each(|(place, stood)| *place = place.wrapping_add(*stood));
            })
        },
        // The inverse of an output is lost, or that of a gate's edge.
        |request, own| {
            telling(request, own, 23, |network, asked| told(&without_inversion(network, true, false), asked))
        },
        |request, own| {
            telling(request, own, 23, |network, asked| told(&without_inversion(network, false, true), asked))
        },
        // A place past the outputs' is written.
        |request, own| leaving(request, own, 23, |_, network, places| places[network.outputs.len()..].fill(0)),
    ]);
}
