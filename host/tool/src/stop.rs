//! How a command ends before its work is done.

use std::io::Write;

/// An exit status, or why there is no more to say than a sentence.
pub type Answer<T = u8> = Result<T, Stop>;

/// A sentence for standard error, and the exit status.
#[derive(Debug)]
pub struct Stop {
    status: u8,
    sentence: String,
}

/// The rules refuse it: status 1.
pub fn refused(sentence: String) -> Stop {
    Stop {
        status: 1,
        sentence,
    }
}

/// It cannot be read, written or understood: status 2.
pub fn unusable(sentence: String) -> Stop {
    Stop {
        status: 2,
        sentence,
    }
}

/// Who reads the output has had enough: nothing is left to say.
pub fn unheard() -> Stop {
    unusable(String::new())
}

/// Says on standard error what stands beside an answer, and ends nothing.
pub fn say_beside(sentence: &str) {
    let _ = writeln!(std::io::stderr(), "seg2: {sentence}");
}

impl Stop {
    pub fn is_unheard(&self) -> bool {
        self.sentence.is_empty()
    }

    pub fn sentence(&self) -> &str {
        self.sentence.trim_end()
    }

    /// Says it on standard error; where that is gone too, the status says it.
    pub fn tell(&self) -> u8 {
        if !self.is_unheard() {
            let _ = writeln!(std::io::stderr(), "seg2: {}", self.sentence());
        }
        self.status
    }
}
