use std::alloc::AllocError;

/// Why there is no number to print.
#[derive(Clone, Copy, Debug, PartialEq, Eq)]
pub(crate) enum Fault {
    /// The words are no case and size.
    Arguments,
    /// Memory was refused.
    Memory,
    /// The output could not be written.
    Output,
    /// The case of this name gives another number than it has to.
    Wrong(&'static str),
}

impl Fault {
    /// The status that the program ends with: 2 for bad arguments, else 1.
    pub(crate) fn status(self) -> u8 {
        match self {
            Fault::Arguments => 2,
            Fault::Memory | Fault::Output | Fault::Wrong(_) => 1,
        }
    }

    pub(crate) fn text(self) -> &'static str {
        match self {
            Fault::Arguments =>
                "bad arguments: a case of docs/SPEED.md and a size are asked for, or `check`",
            Fault::Memory => "out of memory",
            Fault::Output => "output failed",
            Fault::Wrong(_) => "a case gives another number than it has to: ",
        }
    }

    /// The name of the case that is wrong.
    pub(crate) fn case(self) -> &'static str {
        match self {
            Fault::Wrong(name) => name,
            _ => "",
        }
    }
}

impl From<AllocError> for Fault {
    fn from(_refused: AllocError) -> Fault {
        Fault::Memory
    }
}
