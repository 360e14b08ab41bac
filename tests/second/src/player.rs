//! A script on the two programs that are tested, the machine's lines on one and
//! the array's on the other: all of them at once, or line by line, each only
//! after the answer to the one before has come. What they print is put together
//! in the script's order.

use crate::told::{Side, Told};
use std::io::{BufRead, BufReader, Read, Write};
use std::process::{Child, ChildStdin, ChildStdout, Command, ExitStatus, Stdio};
use std::sync::mpsc::{channel, RecvTimeoutError, Sender};
use std::sync::{Arc, Mutex};
use std::thread;
use std::time::Duration;

/// How long one script may take.
const LIMIT: Duration = Duration::from_secs(60);

/// The two programs. One that knows all lines can be both.
#[derive(Clone, Copy)]
pub struct Boards<'a> {
    pub machine: &'a str,
    pub array: &'a str,
}

/// A running program, ended if it takes too long or is no longer wanted.
struct Running {
    program: String,
    child: Arc<Mutex<Child>>,
    finished: Sender<()>,
    watch: thread::JoinHandle<bool>,
}

type Started = (Running, ChildStdin, ChildStdout);

fn start(program: &str) -> Result<Started, String> {
    let mut child = Command::new(program)
        .stdin(Stdio::piped())
        .stdout(Stdio::piped())
        .spawn()
        .map_err(|error| format!("{program}: {error}"))?;
    let (input, output) = match (child.stdin.take(), child.stdout.take()) {
        (Some(input), Some(output)) => (input, output),
        _ => return Err(format!("{program}: no pipes")),
    };
    let child = Arc::new(Mutex::new(child));
    let (finished, wait) = channel();
    let watched = child.clone();
    let watch = thread::spawn(move || {
        let late = wait.recv_timeout(LIMIT) == Err(RecvTimeoutError::Timeout);
        if late {
            end(&watched);
        }
        late
    });
    let running = Running {
        program: program.to_string(),
        child,
        finished,
        watch,
    };
    Ok((running, input, output))
}

/// Ends a program. That it may have ended already is no fault.
fn end(child: &Mutex<Child>) {
    if let Ok(mut child) = child.lock() {
        let _ = child.kill();
    }
}

impl Running {
    /// The program's status. It is asked for again and again, since a program
    /// that is waited for could not be ended by the watch.
    fn status(&self) -> Result<ExitStatus, String> {
        loop {
            let mut child = self.child.lock().map_err(|error| error.to_string())?;
            if let Some(status) = child.try_wait().map_err(|error| error.to_string())? {
                return Ok(status);
            }
            drop(child);
            thread::sleep(Duration::from_millis(1));
        }
    }

    /// Waits for the end that comes by itself.
    fn close(self) -> Result<(), String> {
        let program = &self.program;
        let status = self.status()?;
        let _ = self.finished.send(());
        let late = self.watch.join().unwrap_or(true);
        if late {
            return Err(format!("{program} took more than {} s", LIMIT.as_secs()));
        }
        if !status.success() {
            return Err(format!("{program} ended with {status}"));
        }
        Ok(())
    }
}

/// What was printed, and what was wrong with a program's end, if anything.
pub type Played = (Vec<u8>, Result<(), String>);

/// The whole script at once: each program is given all its lines before any
/// answer is looked at.
pub fn play(boards: Boards, told: &[Told]) -> Result<Played, String> {
    let (machine, array): (Vec<&Told>, _) = told
        .iter()
        .partition(|line| matches!(line.side, Side::Machine));
    let (machine, machine_end) = play_lines(boards.machine, &machine)?;
    let (array, array_end) = play_lines(boards.array, &array)?;
    let printed = put_together(told, &machine, &array);
    Ok((printed, machine_end.and(array_end)))
}

/// One program's own lines.
fn play_lines(program: &str, told: &[&Told]) -> Result<Played, String> {
    let script: Vec<u8> = told.iter().flat_map(|line| line.line.clone()).collect();
    let (running, mut input, mut output) = start(program)?;
    let mut printed = Vec::new();
    thread::scope(|scope| {
        // A board that stops reading is told by what it prints and by its end.
        scope.spawn(move || drop(input.write_all(&script)));
        let read = output.read_to_end(&mut printed);
        read.map_err(|error| error.to_string())
    })?;
    Ok((printed, running.close()))
}

/// What the two printed, in the script's order: for each line as many lines as
/// its answer has, and at the end what is left. Where one of them printed too
/// little, nothing comes after that.
fn put_together<'a>(told: &[Told], mut machine: &'a [u8], mut array: &'a [u8]) -> Vec<u8> {
    let mut printed = Vec::new();
    for line in told {
        let rest = match line.side {
            Side::Machine => &mut machine,
            Side::Array => &mut array,
        };
        for _ in 0..line.answer_lines() {
            let from = printed.len();
            let _ = rest.read_until(b'\n', &mut printed);
            if !printed[from..].ends_with(b"\n") {
                return printed;
            }
        }
    }
    [&printed, machine, array].concat()
}

/// Line by line. "Every other line prints its answer at once, before the next
/// line is read." Ends at the first answer that isn't the one told.
pub fn play_in_step(boards: Boards, told: &[Told]) -> Result<Played, String> {
    let (machine, mut machine_input, machine_output) = start(boards.machine)?;
    let (array, mut array_input, array_output) = start(boards.array)?;
    let mut machine_output = BufReader::new(machine_output);
    let mut array_output = BufReader::new(array_output);
    let mut printed = Vec::new();
    for line in told {
        let (running, input, output) = match line.side {
            Side::Machine => (&machine, &mut machine_input, &mut machine_output),
            Side::Array => (&array, &mut array_input, &mut array_output),
        };
        let sent = input.write_all(&line.line).and_then(|()| input.flush());
        if sent.is_err() {
            break;
        }
        let answer = match line.answer.as_deref() {
            Some(answer) if line.line.ends_with(b"\n") => answer,
            _ => continue,
        };
        let from = printed.len();
        for _ in 0..line.answer_lines() {
            let _ = output.read_until(b'\n', &mut printed);
        }
        if printed[from..].strip_suffix(b"\n") != Some(answer.as_bytes()) {
            end(&running.child);
            break;
        }
    }
    drop((machine_input, array_input));
    let _ = machine_output.read_to_end(&mut printed);
    let _ = array_output.read_to_end(&mut printed);
    Ok((printed, machine.close().and(array.close())))
}
