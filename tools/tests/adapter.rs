//! Asks the reference by way of its adapter (reference/README.md, "Frames").
use std::io::{Read, Write};
use std::process::{Child, ChildStdin, ChildStdout, Command, Stdio};
use tools::game::Game;

const ENTRIES: usize = 4000;
const TABLE: usize = 13 * ENTRIES;
const BUFFER: usize = 17 * ENTRIES;

pub struct Adapter {
    child: Child,
    requests: ChildStdin,
    answers: ChildStdout,
}

impl Adapter {
    pub fn start() -> Result<Adapter, String> {
        let mut child = Command::new("target/reference/reference-adapter")
            .stdin(Stdio::piped())
            .stdout(Stdio::piped())
            .spawn()
            .map_err(|error| format!("the reference cannot be started: {error}"))?;
        match (child.stdin.take(), child.stdout.take()) {
            (Some(requests), Some(answers)) => Ok(Adapter {
                child,
                requests,
                answers,
            }),
            _ => Err("the reference has no input or output".into()),
        }
    }

    /// Ends the adapter, which ends with its input.
    pub fn stop(self) -> Result<(), String> {
        let Adapter {
            mut child,
            requests,
            ..
        } = self;
        drop(requests);
        child.wait().map(|_| ()).map_err(|error| error.to_string())
    }

    /// The refusal, 0 if there is none, and the dump of a task.
    pub fn read(&mut self, task: &[u8]) -> Result<(u32, Vec<u8>), String> {
        let answer = self.ask(1, &[task])?;
        Ok((number(&answer, 1)?, answer.get(9..).unwrap_or(&[]).to_vec()))
    }

    /// The certificate of a comparison; nothing if it is refused.
    pub fn compare(&mut self, game: Game, task: &[u8]) -> Result<Option<Vec<u8>>, String> {
        let operation = match game {
            Game::Equality => 2,
            Game::OneWay => 4,
        };
        let answer = self.ask(operation, &[task, &vec![0; TABLE], &vec![0; BUFFER]])?;
        if number(&answer, 1)? != 0 {
            return Ok(None);
        }
        let length = number(&answer, 17)? as usize;
        let begin = 21 + 4 + TABLE + 4;
        let certificate = answer.get(begin..begin + length).ok_or("a short answer")?;
        Ok(Some(certificate.to_vec()))
    }

    /// The refusal of a certificate, 0 if it is accepted.
    pub fn check(&mut self, game: Game, task: &[u8], certificate: &[u8]) -> Result<u32, String> {
        let operation = match game {
            Game::Equality => 3,
            Game::OneWay => 5,
        };
        number(&self.ask(operation, &[task, certificate])?, 1)
    }

    fn ask(&mut self, operation: u8, strings: &[&[u8]]) -> Result<Vec<u8>, String> {
        let mut payload = vec![operation];
        for string in strings {
            payload.extend((string.len() as u32).to_le_bytes());
            payload.extend(*string);
        }
        let mut frame = (payload.len() as u32).to_le_bytes().to_vec();
        frame.extend(payload);
        self.exchange(&frame)
            .map_err(|error| format!("the reference does not answer: {error}"))
    }

    fn exchange(&mut self, frame: &[u8]) -> std::io::Result<Vec<u8>> {
        self.requests.write_all(frame)?;
        self.requests.flush()?;
        let mut length = [0; 4];
        self.answers.read_exact(&mut length)?;
        let mut answer = vec![0; u32::from_le_bytes(length) as usize];
        self.answers.read_exact(&mut answer)?;
        Ok(answer)
    }
}

fn number(answer: &[u8], at: usize) -> Result<u32, String> {
    let bytes = answer
        .get(at..at + 4)
        .and_then(|bytes| bytes.try_into().ok());
    bytes
        .map(u32::from_le_bytes)
        .ok_or_else(|| "a short answer".into())
}
