//! Scripts: steps in order until one is refused.

use crate::step::{apply, lay, Step};
use crate::table::{read, records, Network, Refusal};

/// A script's reply: steps taken, the refusal or none, and the used length.
#[derive(PartialEq, Eq, Debug)]
pub struct Progress {
    pub taken: u32,
    pub refusal: Option<Refusal>,
    pub used: u32,
}

/// Runs the script on the table in the buffer and leaves there the bytes that its single steps make.
pub fn run(buffer: &mut [u8], used: u32, script: &[u8]) -> Progress {
    run_by(apply, buffer, used, script)
}

/// The same with steps of one's own, each in a buffer of so many bytes.
pub fn run_by(
    mut apply: impl FnMut(&Network, Step, usize) -> Result<Network, Refusal>,
    buffer: &mut [u8],
    used: u32,
    script: &[u8],
) -> Progress {
    let mut progress = Progress { taken: 0, refusal: None, used };
    let mut network = match read(buffer, used, None) {
        Ok(_) if script.len() % 8 != 0 => return Progress { refusal: Some(Refusal::plain(12)), ..progress },
        Ok(network) => network,
        Err(refusal) => return Progress { refusal: Some(refusal), ..progress },
    };
    for fields in records(script) {
        match apply(&network, Step::of(fields), buffer.len()) {
            Ok(result) => network = result,
            Err(refusal) => return Progress { refusal: Some(refusal), ..progress },
        }
        progress.used = lay(buffer, progress.used, &network);
        progress.taken += 1;
    }
    progress
}
