//! A recording while it is made, record by record, up to a length that it never passes.

pub struct Recording {
    bytes: Vec<u8>,
    records: usize,
    length: usize,
}

impl Recording {
    /// The length is the most that the recording will ever hold.
    pub fn up_to(length: usize) -> Self {
        Recording {
            bytes: Vec::with_capacity(length),
            records: 0,
            length,
        }
    }

    pub fn bytes(&self) -> &[u8] {
        &self.bytes
    }

    pub fn into_bytes(self) -> Vec<u8> {
        self.bytes
    }

    pub fn records(&self) -> usize {
        self.records
    }

    pub fn is_full(&self) -> bool {
        self.bytes.len() == self.length
    }

    /// A record that no longer fits is left out whole, and the room it lacked is filled by rising strobes,
    /// so that a loop over `is_full` comes to its end.
    pub fn add(&mut self, record: &[u8]) {
        if self.bytes.len() + record.len() <= self.length {
            self.bytes.extend_from_slice(record);
            self.records += 1;
        } else {
            self.records += self.length - self.bytes.len();
            self.bytes.resize(self.length, 0x04);
        }
    }

    pub fn power(&mut self) {
        self.add(&[0x01]);
    }

    pub fn strobe_falls(&mut self) {
        self.add(&[0x02]);
    }

    pub fn byte_in(&mut self, byte: u8) {
        self.add(&[0x03, byte]);
    }

    pub fn strobe_rises(&mut self) {
        self.add(&[0x04]);
    }

    pub fn gap(&mut self) {
        self.add(&[0x05]);
    }

    pub fn unfinished(&mut self, bits: u8) {
        self.add(&[0x06, bits]);
    }

    pub fn keys(&mut self, keys: [u8; 4]) {
        let [a, b, c, d] = keys;
        self.add(&[0x07, a, b, c, d]);
    }

    pub fn switches(&mut self, switches: u8) {
        self.add(&[0x08, switches]);
    }

    pub fn byte_out(&mut self) {
        self.add(&[0x09]);
    }

    /// One whole strobe: a first byte and what follows it.
    pub fn strobe(&mut self, first: u8, data: &[u8]) {
        self.strobe_falls();
        self.byte_in(first);
        for &byte in data {
            self.byte_in(byte);
        }
        self.strobe_rises();
    }
}

/// The bytes of each strobe, of a recording that has only falls, bytes and rises.
pub fn strobes_in(mut recording: &[u8]) -> Vec<Vec<u8>> {
    let mut strobes: Vec<Vec<u8>> = Vec::new();
    loop {
        recording = match *recording {
            [0x02, ref rest @ ..] => {
                strobes.push(Vec::new());
                rest
            }
            [0x03, byte, ref rest @ ..] => {
                let strobe = strobes.last_mut().expect("a strobe falls before its bytes");
                strobe.push(byte);
                rest
            }
            [0x04, ref rest @ ..] => rest,
            [] => return strobes,
            _ => panic!("not a fall, a byte or a rise: {recording:02X?}"),
        }
    }
}

/// How long a record of this kind is; a kind that is none is one byte.
pub fn record_length(kind: u8) -> usize {
    match kind {
        0x03 | 0x06 | 0x08 => 2,
        0x07 => 5,
        _ => 1,
    }
}

/// The places at which records start, good or bad, as their kinds have it.
pub fn record_starts(recording: &[u8]) -> Vec<usize> {
    let mut starts = Vec::new();
    let mut place = 0;
    while let Some(&kind) = recording.get(place) {
        starts.push(place);
        place += record_length(kind);
    }
    starts
}
