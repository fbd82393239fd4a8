//! The catalogue: every number with buffers to the byte, buffers of every length, and numbers that are no function's.

use super::deck::{kind, Kind};
use crate::catalogue::{network, FUNCTIONS};
use crate::random::Random;
use crate::request::Request;

/// Lengths of out from 0 up to beyond any network of seven gates; a prime, so that steps of any other length come to all.
pub const LENGTHS: usize = 97;

/// Numbers that are no function's, some with the low bits of one.
const BEYOND: [u32; 10] = [256, 65_535, 65_536, 65_686, u32::MAX, 257, 38_400, 1 << 31, 0xffff_ff96, 65_280];

/// Numbers from both ends, one after the other.
fn number(turn: usize) -> u32 {
    let turn = turn % FUNCTIONS;
    (if turn % 2 == 0 { turn / 2 } else { FUNCTIONS - 1 - turn / 2 }) as u32
}

fn request(random: &mut Random, number: u32, length: usize) -> Request {
    Request::Catalogue(number, random.bytes(length))
}

/// The length of a number's network.
fn length(number: u32) -> usize {
    network(number).map_or(0, |network| network.used())
}

/// Each number, in a buffer that is exactly full and in a longer one.
fn each(random: &mut Random, turn: usize) -> Request {
    let number = number(turn / 2);
    let more = if turn % 2 == 0 { 0 } else { random.between(1, 40) };
    request(random, number, length(number) + more)
}

fn one_short(random: &mut Random, turn: usize) -> Request {
    let number = number(turn);
    request(random, number, length(number) - 1)
}

fn any_length(random: &mut Random, turn: usize) -> Request {
    let number = random.below(FUNCTIONS) as u32;
    request(random, number, 36 * turn % LENGTHS)
}

/// Buffers that would hold any network, and such as hold none.
fn beyond(random: &mut Random, turn: usize) -> Request {
    let any = 256 + random.bits() as u32 % (u32::MAX - 255);
    let number = BEYOND.get(turn % (BEYOND.len() + 1)).copied().unwrap_or(any);
    let length = random.pick(&[0, 0, 31, 39, 40, 64, 88, 200]);
    request(random, number, length)
}

fn largest(random: &mut Random, turn: usize) -> Request {
    let number = if turn % 4 == 3 { 256 } else { random.below(FUNCTIONS) as u32 };
    request(random, number, 65_536)
}

pub fn kinds() -> Vec<Kind> {
    vec![
        kind("a number of the catalogue", 9, each),
        kind("a number of the catalogue, one byte short", 5, one_short),
        kind("the catalogue and any length", 3, any_length),
        kind("no number of the catalogue", 2, beyond),
        kind("the catalogue and 65,536 bytes", 0, largest),
    ]
}
