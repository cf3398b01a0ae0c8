//! Modules that are wrong on purpose.

use bench::cutbench::Twin;
use bench::fitting::Module;
use bench::host::Answer;
use bench::plain::{self, Line};

/// What is wrong with a module; all else is the proved one's.
#[derive(Clone, Copy, Debug, PartialEq, Eq)]
pub enum Fault {
    /// Put leaves the name test out too: a name that is none is taken as another.
    AnyName,
    /// A line less is listed than there are files.
    ListsLess,
    /// After a cut the session is still used, and with it the working image.
    UsesOldSession,
}

pub struct WrongModule(pub Fault, pub Module);

impl Twin for WrongModule {
    fn module(&mut self) -> &mut Module {
        &mut self.1
    }

    fn put(&mut self, name: &[u8], content: &[u8]) -> u32 {
        match (self.0, self.1.put(name, content)) {
            (Fault::AnyName, plain::BAD_NAME) => self.1.put(b"any", content),
            (_, number) => number,
        }
    }

    fn list(&mut self, lines: &mut [Line]) -> Answer {
        let before = lines.to_vec();
        let mut answer = self.1.list(lines);
        if self.0 == Fault::ListsLess && answer.count > 0 {
            answer.count -= 1;
            let last = answer.count as usize;
            lines[last] = before[last];
        }
        answer
    }

    fn cut(&mut self, card: Vec<u8>) {
        if self.0 != Fault::UsesOldSession {
            self.1.cut(card);
        }
    }
}
