//! Speaking to the program under test over its standard input and output, one request at a time.

use std::io::{Read, Write};
use std::process::{Child, ChildStdin, ChildStdout, Command, Stdio};
use std::sync::mpsc::{channel, Receiver, Sender};
use std::thread;
use std::time::Duration;

/// How long the program may take for one reply, or to end.
const PATIENCE: Duration = Duration::from_secs(60);

type Ask = (Vec<u8>, usize);

pub struct Pipe {
    child: Child,
    asks: Option<Sender<Ask>>,
    replies: Receiver<Result<Vec<u8>, String>>,
}

/// Sends one request and reads exactly as many bytes as its reply must have.
fn exchange(input: &mut ChildStdin, output: &mut ChildStdout, ask: Ask) -> Result<Vec<u8>, String> {
    let (request, length) = ask;
    let sent = input.write_all(&request).and_then(|()| input.flush());
    sent.map_err(|error| format!("the request could not be sent: {error}"))?;
    let mut reply = Vec::new();
    let read = output.take(length as u64).read_to_end(&mut reply);
    read.map_err(|error| format!("the reply could not be read: {error}"))?;
    if reply.len() < length {
        return Err(format!("short reply: {} of {length} bytes, {reply:02x?}", reply.len()));
    }
    Ok(reply)
}

/// Answers asks until there are no more, then closes the program's input and wants no byte more from it.
fn serve(
    mut input: ChildStdin,
    mut output: ChildStdout,
    asks: Receiver<Ask>,
    replies: Sender<Result<Vec<u8>, String>>,
) {
    let send = |reply| replies.send(reply).is_ok();
    while let Ok(ask) = asks.recv() {
        if !send(exchange(&mut input, &mut output, ask)) {
            return;
        }
    }
    drop(input);
    let mut rest = Vec::new();
    let read = output.read_to_end(&mut rest).map_err(|error| error.to_string());
    send(read.map(|_| rest));
}

impl Pipe {
    pub fn start(command: &[String]) -> Result<Pipe, String> {
        let started =
            Command::new(&command[0]).args(&command[1..]).stdin(Stdio::piped()).stdout(Stdio::piped()).spawn();
        let mut child = started.map_err(|error| format!("cannot start {}: {error}", command[0]))?;
        let ends = child.stdin.take().zip(child.stdout.take());
        let (input, output) = ends.ok_or("the program has no pipe")?;
        let (asks, asked) = channel();
        let (replied, replies) = channel();
        thread::spawn(move || serve(input, output, asked, replied));
        Ok(Pipe { child, asks: Some(asks), replies })
    }

    fn wait(&self) -> Result<Vec<u8>, String> {
        let reply = self.replies.recv_timeout(PATIENCE);
        reply.map_err(|_| format!("no whole reply within {} seconds", PATIENCE.as_secs()))?
    }

    pub fn ask(&mut self, request: Vec<u8>, length: usize) -> Result<Vec<u8>, String> {
        let asks = self.asks.as_ref().ok_or("the program's input is closed")?;
        asks.send((request, length)).map_err(|error| error.to_string())?;
        self.wait()
    }

    /// Ends the program's input; it must end then, successfully and without another byte.
    pub fn finish(mut self) -> Result<(), String> {
        self.asks = None;
        let rest = self.wait()?;
        if !rest.is_empty() {
            return Err(format!("{} bytes after the last reply", rest.len()));
        }
        let status = self.child.wait().map_err(|error| error.to_string())?;
        match status.success() {
            true => Ok(()),
            false => Err(format!("after the last reply the program ended with {status}")),
        }
    }
}

impl Drop for Pipe {
    /// Leaves no process behind after a difference; one that has ended is left alone.
    fn drop(&mut self) {
        if !matches!(self.child.try_wait(), Ok(Some(_))) {
            let _ = self.child.kill();
            let _ = self.child.wait();
        }
    }
}
