//! The two programs that answer lines, run as programs.

use std::io::{self, Read, Write};
use std::path::{Path, PathBuf};
use std::process::{Child, ChildStdin, Command, Output, Stdio};
use std::thread;
use std::time::{Duration, Instant};

/// How long a program may take until it ends.
const PATIENCE: Duration = Duration::from_secs(300);

/// The second program in line mode.
pub fn second() -> Command {
    let mut command = Command::new(env!("CARGO_BIN_EXE_second"));
    command.arg("tally");
    piped(command)
}

/// The proved program, which TIMPANIMIST_TALLY names, or else `../tools/tally`, which runs it.
pub fn proved() -> Command {
    let package = Path::new(env!("CARGO_MANIFEST_DIR"));
    let named = std::env::var_os("TIMPANIMIST_TALLY").map(PathBuf::from);
    let program = package.join(named.unwrap_or_else(|| "../tools/tally".into()));
    assert!(program.is_file(), "there is no {}", program.display());
    piped(Command::new(program))
}

fn piped(mut command: Command) -> Command {
    command.stdin(Stdio::piped());
    command.stdout(Stdio::piped());
    command.stderr(Stdio::piped());
    command
}

/// What a program makes of an input that is written while its output is read.
pub fn run(program: Command, input: &[u8]) -> Output {
    fed(program, |to| to.write_all(input))
}

/// The same, the input being written as it is said. All of it must be read.
pub fn fed(
    mut program: Command,
    write: impl FnOnce(&mut ChildStdin) -> io::Result<()> + Send,
) -> Output {
    let mut child = program.spawn().expect("the program starts");
    let mut to = child.stdin.take().expect("a pipe");
    let mut from = child.stdout.take().expect("a pipe");
    thread::scope(|scope| {
        let writing = scope.spawn(move || write(&mut to));
        let reading = scope.spawn(move || {
            let mut answers = Vec::new();
            from.read_to_end(&mut answers).map(|_| answers)
        });
        let mut output = ended(child);
        let written = writing.join().expect("a thread that ends");
        written.expect("all of the input is read");
        let answers = reading.join().expect("a thread that ends");
        output.stdout = answers.expect("all of the output");
        output
    })
}

/// Waits for a program to end; one that does not is stopped, and the test fails.
pub fn ended(mut child: Child) -> Output {
    let start = Instant::now();
    while child.try_wait().expect("a state").is_none() {
        if start.elapsed() > PATIENCE {
            child.kill().expect("it is stopped");
            panic!("the program does not end");
        }
        thread::sleep(Duration::from_millis(2));
    }
    child.wait_with_output().expect("an end")
}
