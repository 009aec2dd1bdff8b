//! The programs themselves, as the gate leaves them.

use std::io::{self, Write};
use std::path::Path;
use std::process::{Child, Command, Stdio};

/// The program by itself or, where this machine is another than its own, by an emulator.
fn command(program: &Path) -> Command {
    if cfg!(target_arch = "x86_64") {
        return Command::new(program);
    }
    let mut emulator = Command::new("qemu-x86_64");
    emulator.arg(program);
    emulator
}

/// A program of target/bin with these arguments, and pipes for what it reads and prints; what it says goes where it is told.
fn running(program: &str, arguments: &[&str], says: Stdio) -> Child {
    let path = Path::new(env!("CARGO_MANIFEST_DIR")).join("../../target/bin").join(program);
    let child = command(&path).args(arguments).stdin(Stdio::piped()).stdout(Stdio::piped()).stderr(says).spawn();
    child.unwrap_or_else(|error| panic!("{}: {error}: run `./cablesound build` first", path.display()))
}

/// The same; what it says stands among what the test says.
pub fn started(program: &str, arguments: &[&str]) -> Child {
    running(program, arguments, Stdio::inherit())
}

fn text(bytes: Vec<u8>) -> String {
    String::from_utf8(bytes).expect("plain text")
}

/// What a program of target/bin prints and what it says, of a recording that a pipe holds and that it need not read.
pub fn said(program: &str, arguments: &[&str], recording: &[u8]) -> (String, String) {
    let mut child = running(program, arguments, Stdio::piped());
    let _ = child.stdin.take().expect("standard input is a pipe").write_all(recording);
    let output = child.wait_with_output().expect("the program ends");
    (text(output.stdout), text(output.stderr))
}

/// What a program of target/bin prints for a stream that arrives in these pieces, all of which it reads.
pub fn printed(program: &str, arguments: &[&str], stream: &[u8], pieces: &[usize]) -> String {
    let (text, written) = offered(program, arguments, stream, pieces);
    written.expect("the program reads to the end");
    text
}

/// What a program of target/bin prints for a stream that is offered in these pieces, and whether it read them all.
pub fn offered(program: &str, arguments: &[&str], stream: &[u8], pieces: &[usize]) -> (String, io::Result<()>) {
    let mut child = started(program, arguments);
    let mut input = child.stdin.take().expect("standard input is a pipe");
    let (bytes, pieces) = (stream.to_vec(), pieces.to_vec());
    let writer = std::thread::spawn(move || {
        let mut left = &bytes[..];
        pieces.iter().try_for_each(|&piece| {
            let (now, later) = left.split_at(piece);
            left = later;
            input.write_all(now)
        })
    });
    let output = child.wait_with_output().expect("the program ends");
    let written = writer.join().expect("the stream is written");
    assert!(output.status.success(), "{program} fails");
    (text(output.stdout), written)
}
