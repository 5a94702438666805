//! Bytes to lend for writing, between others that must stay as they are.

pub struct Lent {
    whole: Vec<u8>,
}

const AROUND: [u8; 64] = [0xa5; 64];

impl Lent {
    pub fn new(bytes: &[u8]) -> Lent {
        Lent { whole: [&AROUND, bytes, &AROUND].concat() }
    }

    fn end(&self) -> usize {
        self.whole.len() - AROUND.len()
    }

    /// Where there is nothing to lend, this is an empty slice that points to nothing.
    pub fn bytes(&mut self) -> &mut [u8] {
        let end = self.end();
        match &mut self.whole[AROUND.len()..end] {
            [] => &mut [],
            bytes => bytes,
        }
    }

    pub fn returned(&self) -> &[u8] {
        let (before, rest) = self.whole.split_at(AROUND.len());
        let (bytes, after) = rest.split_at(self.end() - AROUND.len());
        assert!(before == AROUND && after == AROUND, "written outside of what was lent");
        bytes
    }
}
