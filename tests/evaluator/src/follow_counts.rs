//! What the followed scripts of a run met.

use crate::answer::Answer;
use crate::follow::Follow;
use crate::graph::Probe;
use crate::step::LAST_RULE;
use crate::table::{census, records};

#[derive(Default)]
pub struct FollowCounts {
    asked: usize,
    /// What there is to meet, and how often it was met.
    met: Vec<(&'static str, usize)>,
}

/// What becomes of gates: how many of them each has met, each told by its number in the first table and what became of it.
fn of_gates(inputs: usize, probes: &[Option<Probe>]) -> Vec<(&'static str, usize)> {
    let count = |met: fn(usize, &Probe) -> bool| {
        let present = (inputs + 1..).zip(probes).filter_map(|(gate, probe)| Some((gate, probe.as_ref()?)));
        present.filter(|(gate, probe)| met(*gate, probe)).count()
    };
    vec![
        ("a gate that stays", count(|gate, probe| probe.node == gate && probe.inversions.is_empty())),
        ("a gate that moved", count(|gate, probe| probe.node != gate)),
        ("a gate that was swept away", probes.iter().filter(|probe| probe.is_none()).count()),
        ("an inverted place", count(|_, probe| probe.edge().inverted)),
        ("a gate that moved and was then inverted", count(|gate, probe| probe.inversions.iter().any(|&at| at != gate))),
        (
            "a gate that was inverted and then moved",
            count(|_, probe| probe.inversions.last().is_some_and(|&at| at != probe.node)),
        ),
        (
            "a gate that was inverted an even number of times",
            count(|_, probe| !probe.inversions.is_empty() && !probe.edge().inverted),
        ),
        ("a place that needs its high byte", count(|_, probe| probe.edge().number() > 255)),
    ]
}

/// What a script is, its lent places and its end.
fn of_script(follow: &Follow, answer: &Answer, probes: &[Option<Probe>]) -> Vec<(&'static str, bool)> {
    let [inputs, gates, _] = census(&follow.table.records());
    let (places, refusal) = (follow.places.len(), answer.refusal.map_or(0, |refusal| refusal.number));
    let few = places < gates;
    let steps = records(&follow.script);
    let taken = &steps[..answer.numbers[0] as usize];
    let moved = |(gate, probe): (usize, &Option<Probe>)| probe.as_ref().is_some_and(|probe| probe.node != gate);
    let moved = (inputs + 1..).zip(probes).any(moved);
    let dropped = probes.contains(&None);
    let stopped = !few && (7..=11).contains(&refusal);
    vec![
        ("as many places as gates", gates > 0 && places == gates && refusal == 0),
        ("more places than gates", gates > 0 && places > gates && refusal == 0),
        ("no gate and no place", gates == 0 && places == 0 && refusal == 0),
        ("one place too few", places + 1 == gates && refusal == 11),
        ("no place for some gates", places == 0 && few && refusal == 11),
        ("too few places, and a first step of no rule", {
            few && refusal == 11 && steps.first().is_some_and(|step| !(1..=LAST_RULE).contains(&step[0]))
        }),
        ("too few places, and an uneven script", few && refusal == 12),
        ("too few places, and a refused table", few && (1..=5).contains(&refusal)),
        ("a voter", taken.iter().any(|step| step[0] == 9)),
        ("steps after a sweep that dropped a gate", dropped && taken.last().is_some_and(|step| step[0] != 8)),
        ("a script that stopped with a gate moved", stopped && moved),
        ("a script that stopped with a gate swept away", stopped && dropped),
        ("a script that stopped for want of bytes", stopped && refusal == 11),
    ]
}

impl FollowCounts {
    pub fn note(&mut self, follow: &Follow, answer: &Answer) {
        let (_, probes) = follow.run(&mut follow.table.buffer.clone());
        let inputs = follow.first().map_or(0, |first| first.inputs);
        let of_script = of_script(follow, answer, &probes).into_iter().map(|(name, met)| (name, usize::from(met)));
        self.asked += 1;
        for (name, count) in of_gates(inputs, &probes).into_iter().chain(of_script) {
            match self.met.iter_mut().find(|met| met.0 == name) {
                Some(met) => met.1 += count,
                None => self.met.push((name, count)),
            }
        }
    }

    pub fn never_met(&self) -> Vec<String> {
        let never = self.met.iter().filter(|met| met.1 == 0);
        never.map(|(name, _)| format!("never met: {name}, by operation 28")).collect()
    }

    pub fn report(&self) -> Vec<String> {
        let met = self.met.iter().map(|(name, count)| format!("  {name}: {count} times"));
        [format!("followed: {} scripts", self.asked)].into_iter().chain(met).collect()
    }
}
