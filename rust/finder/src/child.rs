//! Another program, asked by its standard input.

use std::io::{self, BufWriter, Read, Write};
use std::process::{Command, Stdio};
use std::sync::mpsc;
use std::thread;

use crate::limits::{Limits, Stop};

/// What a program writes on its standard output, given what is written to its input; none where it
/// cannot be run or read. It is ended where the time is up.
///
/// Writing and reading have threads of their own, so that neither side waits for the other. Nobody
/// waits for the threads: what the program has started may hold its output open after its end.
pub fn answer(
    program: &str,
    write: impl FnOnce(&mut dyn Write) -> io::Result<()> + Send + 'static,
    limits: &Limits,
) -> Result<Option<Vec<u8>>, Stop> {
    limits.look()?;
    let mut command = Command::new(program);
    command.stdin(Stdio::piped()).stdout(Stdio::piped()).stderr(Stdio::null());
    let Ok(mut child) = command.spawn() else { return Ok(None) };
    let (Some(input), Some(mut output)) = (child.stdin.take(), child.stdout.take()) else {
        return Ok(None);
    };
    let (sent, received) = mpsc::channel();
    // a program may answer before it has read all: what it does not take is no failure
    thread::spawn(move || drop(write(&mut BufWriter::new(input))));
    thread::spawn(move || {
        let mut bytes = Vec::new();
        let read = output.read_to_end(&mut bytes).is_ok();
        drop(sent.send(read.then_some(bytes)));
    });
    let answer = received.recv_timeout(limits.left());
    // it has ended, or is to: its output is at its end, or its time is up
    let _ = child.kill();
    let _ = child.wait();
    answer.map_err(|_| Stop::Time)
}

#[cfg(test)]
mod tests {
    use super::*;
    use std::time::{Duration, Instant};

    fn limits(milliseconds: u64) -> Limits {
        Limits::new(Duration::from_millis(milliseconds), usize::MAX)
    }

    #[test]
    fn a_program_answers() {
        let long = || vec![b'x'; 1 << 20];
        let answered = answer("cat", move |input| input.write_all(&long()), &limits(60_000));
        assert_eq!(answered, Ok(Some(long())));
        assert_eq!(answer("no such program", |_| Ok(()), &limits(60_000)), Ok(None));
    }

    #[test]
    fn a_program_that_takes_too_long_is_ended() {
        let begun = Instant::now();
        let endless = |input: &mut dyn Write| loop {
            input.write_all(b"y\n")?;
        };
        assert_eq!(answer("cat", endless, &limits(50)), Err(Stop::Time));
        assert!(begun.elapsed() < Duration::from_secs(30));
    }
}
