//! Words and totals of small tables, with the specification's literal numbers; the order of refusals; and what they have to do with
//! single evaluations.

use crate::answer::{answer, Answer};
use crate::at_once::{told, Asked, AtOnce, WORD};
use crate::cases::networks;
use crate::random::Random;
use crate::request::{Request, Table};
use crate::sheet::network;
use crate::table::{Edge, Network, Refusal};
use crate::value::evaluate;

/// The request on the network's table with so many places of 7.
fn ask(network: &Network, asked: Asked, places: usize) -> AtOnce {
    let buffer = network.bytes();
    AtOnce { table: Table { used: buffer.len() as u32, buffer }, asked, places: vec![7; places] }
}

/// The places that an accepted request leaves, or the refusal's number.
fn left(network: &Network, asked: Asked, places: usize) -> Result<Vec<u64>, u32> {
    let asked = ask(network, asked, places);
    asked.network().map(|network| asked.written(&network)).map_err(|refusal| refusal.number)
}

fn words(network: &Network, first: u32) -> Result<Vec<u64>, u32> {
    left(network, Asked::Words(first), network.outputs.len())
}

fn totals(network: &Network) -> Result<Vec<u64>, u32> {
    left(network, Asked::Totals, network.outputs.len())
}

#[test]
fn the_adder() {
    let adder = network(3, [[2, 4, 6], [2, 4, 7], [9, 10, 6]], &[12, 8]);
    assert_eq!(words(&adder, 0), Ok(vec![0x96, 0xe8]));
    assert_eq!(totals(&adder), Ok(vec![4, 4]));
}

/// Bit k of an input's word is the input's bit of the first assignment plus k.
#[test]
fn words_of_inputs() {
    let of_six = [
        0xaaaa_aaaa_aaaa_aaaa,
        0xcccc_cccc_cccc_cccc,
        0xf0f0_f0f0_f0f0_f0f0,
        0xff00_ff00_ff00_ff00,
        0xffff_0000_ffff_0000,
        0xffff_ffff_0000_0000,
    ];
    for (inputs, inverted) in (0..=16).flat_map(|inputs| [(inputs, false), (inputs, true)]) {
        let mask = if inputs < 6 { (1 << (1 << inputs)) - 1 } else { u64::MAX };
        let outputs = (0..=inputs).map(|node| Edge { node, inverted }).collect();
        let table = Network { inputs, gates: vec![], outputs };
        for first in (0..1 << inputs).step_by(64) {
            for (node, word) in words(&table, first).unwrap().into_iter().enumerate() {
                let plain = match node {
                    0 => 0,
                    1..=6 => of_six[node - 1],
                    _ if first >> (node - 1) & 1 == 1 => u64::MAX,
                    _ => 0,
                };
                let expected = if inverted { !plain } else { plain };
                assert_eq!(word, expected & mask, "{inputs} inputs, first {first}, node {node}, inverted: {inverted}");
            }
        }
    }
}

/// With n below 6 bits from 2^n up are zero, whatever is inverted.
#[test]
fn bits_past_the_assignments() {
    for (inputs, word) in
        [(0, 1), (1, 3), (2, 0xf), (3, 0xff), (4, 0xffff), (5, 0xffff_ffff), (6, u64::MAX), (7, u64::MAX)]
    {
        let node = 2 * (inputs as u16 + 1);
        let table = network(inputs, [[1, 1, 1], [0, 0, 0]], &[1, node, node + 3, 0]);
        assert_eq!(words(&table, 0), Ok(vec![word, word, word, 0]));
        let all = 1 << inputs;
        assert_eq!(totals(&table), Ok(vec![all, all, all, 0]));
    }
}

#[test]
fn totals_reach_65536() {
    let table = network(16, [[2, 4, 6], [0, 32, 30]], &[1, 0, 32, 33, 34, 36]);
    assert_eq!(totals(&table), Ok(vec![65_536, 0, 32_768, 32_768, 32_768, 16_384]));
}

#[test]
fn first_assignments_at_their_borders() {
    for inputs in 0..=16usize {
        let table = network(inputs, [], &[1]);
        let past = 1u32 << inputs;
        for first in
            [0, 1, 31, 32, 63, 64, 65, 127, 128, past - 1, past, past + 64, 65_536, 1 << 31, u32::MAX - 63, u32::MAX]
        {
            let accepted = match inputs {
                0..=5 => first == 0,
                _ => first % 64 == 0 && first < past,
            };
            assert_eq!(
                words(&table, first).err(),
                if accepted { None } else { Some(6) },
                "{inputs} inputs, first {first}"
            );
        }
    }
}

/// 1 to 5, then 15, then 6 for words, then 11.
#[test]
fn refusals_come_in_their_order() {
    for inputs in [17, 18, 32] {
        let table = network(inputs, [], &[1, 0]);
        for (asked, places) in [(0, 2), (1, 2), (0, 1), (1, 1), (64, 0), (u32::MAX, 0)] {
            assert_eq!(left(&table, Asked::Words(asked), places), Err(15));
            assert_eq!(left(&table, Asked::Totals, places), Err(15));
        }
        let bad = network(inputs, [], &[1, 2 * inputs as u16 + 2]);
        assert_eq!(left(&bad, Asked::Words(1), 0), Err(5));
        assert_eq!(left(&bad, Asked::Totals, 0), Err(5));
    }
    let table = network(16, [], &[1, 0]);
    assert_eq!(left(&table, Asked::Words(1), 1), Err(6));
    assert_eq!(left(&table, Asked::Words(65_536), 0), Err(6));
    assert_eq!(left(&table, Asked::Words(64), 1), Err(11));
    assert_eq!(left(&table, Asked::Totals, 1), Err(11));
    assert_eq!(left(&table, Asked::Words(64), 2), Ok(vec![u64::MAX, 0]));
    assert_eq!(left(&table, Asked::Words(64), 4), Ok(vec![u64::MAX, 0, 7, 7]));
    assert_eq!(left(&table, Asked::Totals, 3), Ok(vec![65_536, 0, 7]));
}

/// The reply has the number of places written, and then each place, low byte first.
#[test]
fn the_bytes_of_a_reply() {
    let table = network(7, [], &[1, 16 - 2]);
    let mut asked = ask(&table, Asked::Words(64), 3);
    asked.places[2] = 0x0102_0304_0506_0708;
    let request = Request::AtOnce(asked.clone());
    let expected = [vec![255; 16], vec![8, 7, 6, 5, 4, 3, 2, 1]].concat();
    assert_eq!(answer(&request), Answer { refusal: None, numbers: vec![2], bytes: expected.clone() });
    assert_eq!(request.operation(), 22);
    let bytes = request.bytes();
    assert_eq!(bytes[..9], [22, 72, 0, 0, 0, 72, 0, 0, 0]);
    assert_eq!(bytes[81..97], [64, 0, 0, 0, 3, 0, 0, 0, 7, 0, 0, 0, 0, 0, 0, 0]);
    assert_eq!(bytes[105..], [8, 7, 6, 5, 4, 3, 2, 1]);
    let request = Request::AtOnce(AtOnce { asked: Asked::Totals, ..asked.clone() });
    assert_eq!(answer(&request).bytes[..16], [128, 0, 0, 0, 0, 0, 0, 0, 64, 0, 0, 0, 0, 0, 0, 0]);
    assert_eq!((request.operation(), request.bytes()[81..89].to_vec()), (23, vec![3, 0, 0, 0, 7, 0, 0, 0]));
    let refused = Request::AtOnce(AtOnce { asked: Asked::Words(63), ..asked });
    let kept = [[7, 0, 0, 0, 0, 0, 0, 0].repeat(2), vec![8, 7, 6, 5, 4, 3, 2, 1]].concat();
    assert_eq!(answer(&refused), Answer { refusal: Some(Refusal::plain(6)), numbers: vec![0], bytes: kept });
}

/// Over all assignments of some tables: bit k of a word is the single evaluation's, and the totals are the ones of all words.
#[test]
fn words_totals_and_single_evaluations() {
    let mut random = Random::new(4);
    for inputs in (0..=16).chain([16, 16]) {
        let network = networks::sized(&mut random, inputs, 12, 5);
        let past = 1u32 << inputs;
        let mut ones = vec![0; 5];
        for first in (0..past).step_by(WORD as usize) {
            let words = told(&network, Asked::Words(first));
            for k in 0..WORD {
                let single = evaluate(&network, first + k).unwrap_or(0);
                let bits = words.iter().enumerate().map(|(place, word)| ((word >> k & 1) as u32) << place);
                assert_eq!(bits.sum::<u32>(), single);
            }
            ones.iter_mut().zip(words).for_each(|(ones, word)| *ones += u64::from(word.count_ones()));
        }
        assert_eq!(told(&network, Asked::Totals), ones);
    }
}
