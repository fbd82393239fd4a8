//! The comparison of a reply with the evaluator's own answer, and the report of a difference.

use crate::answer::{number_names, Answer};
use crate::random::Random;
use crate::request::{call, Request};
use crate::rm3::{translate, Mode, Rm3};
use crate::value::{depth, outputs, some_assignments};

/// Bytes in hex, the first ones of a long part only.
fn hex(bytes: &[u8]) -> String {
    const SHOWN: usize = 96;
    let groups = bytes[..bytes.len().min(SHOWN)].chunks(8);
    let shown = groups.map(|group| group.iter().map(|byte| format!("{byte:02x}")).collect::<String>());
    let dots = if bytes.len() > SHOWN { " ..." } else { "" };
    format!("{}{dots} ({} bytes)", shown.collect::<Vec<_>>().join(" "), bytes.len())
}

/// The request's parts in hex, one a line.
pub fn describe(request: &Request) -> String {
    let operation = request.operation();
    let mut text = format!("operation {operation} ({})\n", call(operation));
    for (name, bytes) in request.parts() {
        text += &format!("  {name}: {}\n", hex(&bytes));
    }
    if let Request::Stored(stored) = request {
        text += &format!("  stored script: {}\n", hex(&stored.script));
    }
    text
}

/// One line for each number that differs, and some for the buffer's bytes and the places; none where the reply is the answer.
pub fn differences(request: &Request, answer: &Answer, reply: &[u8]) -> Vec<String> {
    let expected = answer.bytes();
    let names = ["refusal", "record", "edge"].iter().chain(number_names(request.operation()));
    let head = 4 * names.clone().count();
    let (end, width) = match request {
        Request::Follow(follow) => (head + follow.table.buffer.len(), 2),
        Request::AtOnce(_) => (head, 8),
        _ => (expected.len(), 1),
    };
    let number = |bytes: &[u8], at: usize| u32::from_le_bytes([bytes[at], bytes[at + 1], bytes[at + 2], bytes[at + 3]]);
    let mut lines = Vec::new();
    for (place, name) in names.enumerate() {
        let (wanted, got) = (number(&expected, 4 * place), number(reply, 4 * place));
        if wanted != got {
            lines.push(format!("{name}: expected {wanted}, got {got}"));
        }
    }
    let differ = |at: &usize| expected[*at] != reply[*at];
    if let Some(at) = (head..end).find(differ) {
        let whole = (head..end).filter(differ).count();
        let from = head + (at - head) / 8 * 8;
        lines.push(format!("{whole} bytes of the buffer differ, first byte {}", at - head));
        lines.push(format!("  from byte {} expected {}", from - head, hex(&expected[from..end])));
        lines.push(format!("  from byte {} got      {}", from - head, hex(&reply[from..end])));
    }
    let places = |bytes: &[u8]| -> Vec<u64> {
        let place = |bytes: &[u8]| bytes.iter().rev().fold(0, |high, &byte| high << 8 | u64::from(byte));
        bytes[end..].chunks_exact(width).map(place).collect()
    };
    let pairs: Vec<_> = places(&expected).into_iter().zip(places(reply)).enumerate().collect();
    let differing: Vec<_> = pairs.iter().filter(|(_, (wanted, got))| wanted != got).collect();
    if let Some((at, (wanted, got))) = differing.first() {
        let whole = differing.len();
        let told = match request.operation() {
            22 => format!("expected {wanted:016x}, got {got:016x}"),
            _ => format!("expected {wanted}, got {got}"),
        };
        lines.push(format!("{whole} of {} places differ, first place {at}: {told}", pairs.len()));
    }
    lines
}

/// What is wrong with the RM3 bytes of a reply that was as expected: its worth, its count of operations, its depth. Where helpers
/// are reused there are no more operations than where they are made anew, and the depth is the same.
pub fn rm3_faults(request: &Request, answer: &Answer, random: &mut Random) -> Option<String> {
    let Request::Rm3(_, table, _) = request else {
        return None;
    };
    let network = table.network().ok().filter(|_| answer.refusal.is_none())?;
    let Some(rm3) = Rm3::read(&answer.bytes[..answer.numbers[0] as usize]) else {
        return Some("the RM3 bytes are no RM3 table".to_string());
    };
    let most = 3 * network.gates.len() + network.outputs.len();
    if rm3.operations.len() > most {
        return Some(format!("{} RM3 operations, at most {most} allowed", rm3.operations.len()));
    }
    let deepest = 2 * depth(&network) + 1;
    if rm3.depth() > deepest {
        return Some(format!("RM3 depth {}, at most {deepest} allowed", rm3.depth()));
    }
    let [once, anew] = [Mode::Once, Mode::Anew].map(|mode| translate(&network, mode));
    let (fewer, more) = (once.operations.len(), anew.operations.len());
    if !(fewer..=more).contains(&rm3.operations.len()) {
        return Some(format!("{} RM3 operations, from {fewer} to {more} allowed", rm3.operations.len()));
    }
    if once.depth() != anew.depth() {
        return Some(format!("RM3 depth {} where helpers are reused, {} anew", once.depth(), anew.depth()));
    }
    let wrong = |&assignment: &u32| outputs(&network, assignment) != rm3.values(assignment);
    let assignment = some_assignments(random, network.inputs).into_iter().find(wrong)?;
    Some(format!("the RM3 network is worth something else under assignment {assignment:#x}"))
}
