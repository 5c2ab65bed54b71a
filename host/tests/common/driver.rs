//! The built programs, driven through their standard input and output.

use std::io::{Read, Write};
use std::process::{Child, Command, Stdio};
use std::sync::mpsc::{channel, Receiver};
use std::thread;
use std::time::Duration;

/// For what should never happen: a program that stands still is a failure.
const LIMIT: Duration = Duration::from_secs(240);

const RUN: &str = concat!(env!("CARGO_MANIFEST_DIR"), "/../tools/run");

/// What a program that `tools/build` built writes for its whole input. It says nothing on standard error.
pub fn built(name: &str, input: &[u8]) -> Vec<u8> {
    let mut program = started(name);
    feed(&mut program, input.to_vec());
    let written = collected(program.stdout.take().unwrap());
    let said = collected(program.stderr.take().unwrap());
    let written = within_limit(&mut program, written);
    let said = within_limit(&mut program, said);
    let status = program.wait().unwrap();
    let said = String::from_utf8_lossy(&said);
    assert!(
        status.success() && said.is_empty(),
        "{RUN} {name}: {status}; it says: {said}"
    );
    written
}

fn started(name: &str) -> Child {
    Command::new(RUN)
        .arg(name)
        .stdin(Stdio::piped())
        .stdout(Stdio::piped())
        .stderr(Stdio::piped())
        .spawn()
        .unwrap_or_else(|why| panic!("{RUN}: {why}"))
}

/// Feeds the program beside what else is done, so that neither waits for the other. One that
/// goes away early is told by what it wrote and by its status.
fn feed(program: &mut Child, input: Vec<u8>) {
    let mut stdin = program.stdin.take().unwrap();
    thread::spawn(move || stdin.write_all(&input));
}

fn collected(mut stream: impl Read + Send + 'static) -> Receiver<Vec<u8>> {
    let (sender, receiver) = channel();
    thread::spawn(move || {
        let mut bytes = Vec::new();
        stream.read_to_end(&mut bytes).unwrap();
        sender.send(bytes)
    });
    receiver
}

fn within_limit(program: &mut Child, bytes: Receiver<Vec<u8>>) -> Vec<u8> {
    bytes.recv_timeout(LIMIT).unwrap_or_else(|_| {
        program.kill().unwrap();
        panic!("{RUN}: the program does not end within {LIMIT:?}")
    })
}
