//! The child processes whose answers the runner compares.

use crate::frames::{read_frame, write_frame, Request, Response};
use std::io::{BufReader, BufWriter, Read, Write};
use std::process::{Child, ChildStdin, ChildStdout, Command, ExitStatus, Stdio};
use std::sync::{Arc, Mutex};
use std::time::{Duration, Instant};

/// Kills the child it was given if that does not answer in time, so that a
/// run always comes to an end.
#[derive(Clone)]
pub struct Watch {
    state: Arc<Mutex<WatchState>>,
    timeout: Duration,
}

#[derive(Default)]
struct WatchState {
    child: Option<Child>,
    deadline: Option<Instant>,
}

impl WatchState {
    fn kill_if_late(&mut self) {
        if self.deadline.is_some_and(|d| Instant::now() > d) {
            self.deadline = None;
            if let Some(child) = &mut self.child {
                let _ = child.kill();
            }
        }
    }
}

impl Watch {
    pub fn start(timeout: Duration) -> Watch {
        let state = Arc::new(Mutex::new(WatchState::default()));
        let watched = state.clone();
        std::thread::spawn(move || loop {
            std::thread::sleep(Duration::from_millis(100));
            watched.lock().expect("watch").kill_if_late();
        });
        Watch { state, timeout }
    }

    fn guard(&self, child: Child) {
        self.state.lock().expect("watch").child = Some(child);
    }

    fn begin(&self) {
        self.state.lock().expect("watch").deadline = Some(Instant::now() + self.timeout);
    }

    fn done(&self) {
        self.state.lock().expect("watch").deadline = None;
    }

    fn wait_for_child(&self) -> Option<ExitStatus> {
        let child = self.state.lock().expect("watch").child.take();
        child.and_then(|mut c| c.wait().ok())
    }
}

/// An adapter: one process, many requests.
pub struct Adapter {
    watch: Watch,
    input: Option<BufWriter<ChildStdin>>,
    output: BufReader<ChildStdout>,
}

impl Adapter {
    pub fn start(watch: &Watch, command: &[String]) -> Result<Adapter, String> {
        let mut child = spawn(command)?;
        let input = child.stdin.take().map(BufWriter::new);
        let output = BufReader::new(child.stdout.take().ok_or("no output")?);
        watch.guard(child);
        Ok(Adapter { watch: watch.clone(), input, output })
    }

    pub fn ask(&mut self, request: &Request) -> Result<Response, String> {
        self.watch.begin();
        let answer = self.exchange(request);
        self.watch.done();
        answer
    }

    fn exchange(&mut self, request: &Request) -> Result<Response, String> {
        let input = self.input.as_mut().ok_or("the adapter has no input")?;
        write_frame(input, &request.payload()).map_err(|e| format!("cannot write: {e}"))?;
        let frame = read_frame(&mut self.output).map_err(|e| format!("cannot read: {e}"))?;
        let payload = frame.ok_or("the adapter ended")?;
        Response::from_payload(&payload).ok_or_else(|| "the answer is no frame".to_string())
    }
}

impl Drop for Adapter {
    fn drop(&mut self) {
        self.watch.begin();
        // Closing its input tells the adapter to end.
        self.input = None;
        let _ = self.output.read_to_end(&mut Vec::new());
        self.watch.wait_for_child();
        self.watch.done();
    }
}

fn spawn(command: &[String]) -> Result<Child, String> {
    let (program, arguments) = command.split_first().ok_or("no command")?;
    Command::new(program)
        .args(arguments)
        .stdin(Stdio::piped())
        .stdout(Stdio::piped())
        .spawn()
        .map_err(|e| format!("cannot start {program}: {e}"))
}

/// Runs a program once: task on its standard input, text on its output.
pub fn run_program(watch: &Watch, command: &[String], input: &[u8]) -> Result<Vec<u8>, String> {
    let mut child = spawn(command)?;
    let mut to_child = child.stdin.take().ok_or("no input")?;
    let mut from_child = child.stdout.take().ok_or("no output")?;
    watch.guard(child);
    watch.begin();
    let mut text = Vec::new();
    let read = std::thread::scope(|scope| {
        // A program may stop reading early, so a failed write is no fault.
        scope.spawn(move || to_child.write_all(input).is_ok());
        from_child.read_to_end(&mut text)
    });
    let status = watch.wait_for_child();
    watch.done();
    read.map_err(|e| format!("cannot read: {e}"))?;
    match status.and_then(|s| s.code()) {
        Some(_) => Ok(text),
        None => Err("the program was ended by a signal".to_string()),
    }
}
