//! Answers and their text.

#[derive(Clone, Copy)]
pub enum Answer {
    Code(i32),
    Wait(usize),
    Done,
    Off,
    Bad,
    Stopped,
    Held,
    Denied,
    Idle,
}

/// No line of an answer is longer.
pub const LONGEST: usize = 20;

/// Text that waits to be written.
pub struct Text {
    bytes: Box<[u8]>,
    len: usize,
}

impl Text {
    pub fn with_room(room: usize) -> Text {
        Text { bytes: vec![0; room].into_boxed_slice(), len: 0 }
    }

    pub fn room(&self) -> usize {
        self.bytes.len() - self.len
    }

    /// What has been put, and an empty text again.
    pub fn take(&mut self) -> &[u8] {
        let len = std::mem::take(&mut self.len);
        &self.bytes[..len]
    }

    pub fn put_answer(&mut self, answer: Answer) {
        match answer {
            Answer::Code(code) => self.put_number(b"code ", code),
            Answer::Wait(cell) => self.put_number(b"wait ", cell as i32),
            Answer::Done => self.put(b"done\n"),
            Answer::Off => self.put(b"off\n"),
            Answer::Bad => self.put(b"bad\n"),
            Answer::Stopped => self.put(b"stopped\n"),
            Answer::Held => self.put(b"held\n"),
            Answer::Denied => self.put(b"denied\n"),
            Answer::Idle => self.put(b"idle\n"),
        }
    }

    /// A word, a signed number and a line feed.
    pub fn put_number(&mut self, word: &[u8; 5], number: i32) {
        let out = &mut self.bytes[self.len..self.len + LONGEST];
        out[..5].copy_from_slice(word);
        out[5] = b'-';
        let first = 5 + (number < 0) as usize;
        let mut left = number.unsigned_abs();
        let mut at = first + left.checked_ilog10().unwrap_or(0) as usize;
        self.len += at + 2;
        out[at + 1] = b'\n';
        while left >= 10 {
            out[at] = b'0' + (left % 10) as u8;
            left /= 10;
            at -= 1;
        }
        out[first] = b'0' + left as u8;
    }

    fn put<const N: usize>(&mut self, text: &[u8; N]) {
        self.bytes[self.len..self.len + N].copy_from_slice(text);
        self.len += N;
    }
}
