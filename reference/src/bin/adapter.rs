//! An adapter over the reference: answers the runner's frames.

use reference::frames::*;
use std::io::{self, BufReader, BufWriter};

fn main() -> io::Result<()> {
    let mut input = BufReader::new(io::stdin().lock());
    let mut output = BufWriter::new(io::stdout().lock());
    while let Some(payload) = read_frame(&mut input)? {
        let request = Request::from_payload(&payload).ok_or(io::ErrorKind::InvalidData)?;
        write_frame(&mut output, &reference_response(&request).payload())?;
    }
    Ok(())
}
