//! The dealing of cases: operations by their share, kinds of cases by their weight, variants in turn.

use super::kinds;
use crate::random::Random;
use crate::request::Request;

type Maker = Box<dyn Fn(&mut Random, usize) -> Request>;

/// A kind of case: its weight in the operation's deck (0: rare) and its maker, which is told whose turn it is so
/// that it goes through its variants one after the other.
pub struct Kind {
    name: &'static str,
    weight: usize,
    make: Maker,
}

pub fn kind(name: &'static str, weight: usize, make: impl Fn(&mut Random, usize) -> Request + 'static) -> Kind {
    Kind { name, weight, make: Box::new(make) }
}

pub struct Case {
    pub kind: &'static str,
    pub request: Request,
}

/// Cards that are dealt in a mixed order, all of them before any comes again.
struct Deck {
    cards: Vec<usize>,
    left: usize,
}

impl Deck {
    /// Card i stands in the deck as often as the i-th weight says.
    fn new(weights: impl Iterator<Item = usize>) -> Deck {
        let cards = weights.enumerate().flat_map(|(card, weight)| vec![card; weight]).collect();
        Deck { cards, left: 0 }
    }

    fn deal(&mut self, random: &mut Random) -> usize {
        if self.left == 0 {
            random.shuffle(&mut self.cards);
            self.left = self.cards.len();
        }
        self.left -= 1;
        self.cards[self.left]
    }
}

/// The kinds of one operation with their decks, and how often each was dealt.
struct Hand {
    kinds: Vec<Kind>,
    common: Deck,
    rare: Deck,
    turns: Vec<usize>,
    dealt: usize,
}

impl Hand {
    fn new(operation: u8) -> Hand {
        let kinds = kinds(operation);
        let common = Deck::new(kinds.iter().map(|kind| kind.weight));
        let rare = Deck::new(kinds.iter().map(|kind| usize::from(kind.weight == 0)));
        Hand { turns: vec![0; kinds.len()], kinds, common, rare, dealt: 0 }
    }

    fn deal(&mut self, random: &mut Random) -> Case {
        self.dealt += 1;
        let deck = if self.dealt % 100 == 50 { &mut self.rare } else { &mut self.common };
        let card = deck.deal(random);
        let kind = &self.kinds[card];
        let request = (kind.make)(random, self.turns[card]);
        self.turns[card] += 1;
        Case { kind: kind.name, request }
    }
}

/// The share of an operation in a run.
fn share(operation: u8) -> usize {
    match operation {
        4 => 8,
        5 | 28 => 4,
        1 | 6 | 16 | 22 | 23 | 25 => 3,
        2 | 7 | 8 => 2,
        _ => 1,
    }
}

pub struct Dealer {
    random: Random,
    operations: Deck,
    hands: Vec<Hand>,
}

impl Dealer {
    pub fn new(seed: u64, operations: &[u8]) -> Dealer {
        let shares = operations.iter().map(|&operation| share(operation));
        let hands = operations.iter().map(|&operation| Hand::new(operation)).collect();
        Dealer { random: Random::new(seed), operations: Deck::new(shares), hands }
    }

    pub fn deal(&mut self) -> Case {
        let hand = self.operations.deal(&mut self.random);
        self.hands[hand].deal(&mut self.random)
    }
}
