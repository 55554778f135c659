use futures::task::{Doorbell, Solo};
use pollrun::serve::serve;
use std::io::{self, Error, ErrorKind, Write};
use std::test::Fail;

/// Words, what is printed, what is told, and the status.
type Row = (&'static str, &'static str, &'static str, u8);

const ROWS: [Row; 19] = [
    ("evens 4 1,P,2,3", "P,2,E,E\n", "", 0),
    ("double 3 -999999,P,0", "-1999998,P,0\n", "", 0),
    ("evens 2 1,3", "E,E\n", "", 0),
    ("plain 0 5", "\n", "", 0),
    ("plain 4 1,E,-7", "1,E,-7,E\n", "", 0),
    ("take2 4 P,1,2,3", "P,1,2,E\n", "", 0),
    ("take2 3 1,E,2", "1,E,E\n", "", 0),
    ("chain 6 1,E,9 P,2", "1,P,2,E,E,E\n", "", 0),
    ("chain 0 1 2", "\n", "", 0),
    ("or 3 P,5 E", "P,5,E\n", "", 0),
    ("or 5 1,P,2 P,7", "1,P,2,7,E\n", "", 0),
    ("or 5 1,E,3 2,E,4", "1,2,E,E,E\n", "", 0),
    ("or 0 1 2", "\n", "", 0),
    ("zip 3 1,2 P,7", "P,1:7,E\n", "", 0),
    ("zip 2 -1 -999999", "-1:-999999,E\n", "", 0),
    ("zip 4 1,E,2 P,E,3", "P,E,E,2:3\n", "", 0),
    ("zip 0 1 2", "\n", "", 0),
    ("step2 4 1,2,E,3", "1,E,3,E\n", "", 0),
    ("step2 3 1,2,P,3", "1,P,3\n", "", 0),
];

/// Words that are no request.
const BAD: [&str; 25] = [
    "plain  1 1",
    "plain 1 ",
    "plain 1 01",
    "plain 1 -0",
    "plain 1 1,,2",
    "plain 1 1000000",
    "plain 1 -1000000",
    "plain 1 +1",
    "plain 1 1,",
    "plain 1 p",
    "plain 01 1",
    "plain -1 1",
    "evens 1001 1",
    "take3 1 5",
    "chain 1 5",
    "chain 1 5 x",
    "or 1 5",
    "zip 1 5",
    "zip 1 5 1:2",
    "zip 1 5 6 7",
    "Plain 1 5",
    "",
    "plain",
    "plain 1",
    "plain 1 1 1",
];

/// A writer that keeps what it is given, until the calls that it allows are used up.
#[derive(Drop)]
struct Limited {
    calls: usize,
    text: Vec<u8>,
}

impl Limited {
    fn call(&mut self) -> io::Result<()> {
        if self.calls == 0 {
            return Err(Error::from(ErrorKind::Other));
        }
        self.calls -= 1;
        Ok(())
    }
}

impl Write for Limited {
    fn write(&mut self, buf: &[u8]) -> io::Result<usize> {
        self.call()?;
        self.text.extend_from_slice(buf)?;
        Ok(buf.len())
    }

    fn flush(&mut self) -> io::Result<()> {
        self.call()
    }
}

/// What serving a line of words prints and tells, and its status, where each writer allows so many calls.
fn served(
    rt: &HostRuntime,
    line: &str,
    out_calls: usize,
    err_calls: usize,
) -> Result<(Vec<u8>, Vec<u8>, u8), Fail> {
    let mut words = Vec::new(rt.alloc());
    for word in line.split(' ') {
        words.push(String::from_str(rt.alloc(), word)?)?;
    }
    let mut out = Limited {
        calls: out_calls,
        text: Vec::new(rt.alloc()),
    };
    let mut err = Limited {
        calls: err_calls,
        text: Vec::new(rt.alloc()),
    };
    let solo = Solo::new(rt, Doorbell::spinning())?;
    let mut cx = solo.begin();
    let status = serve(rt.alloc(), &mut cx, &words, &mut out, &mut err);
    cx.cancel();
    Ok((out.text, err.text, status))
}

#[test]
fn rows(rt: HostRuntime) -> Result<(), Fail> {
    for (line, printed, told, status) in ROWS {
        let (out, err, ended) = served(&rt, line, 9, 9)?;
        assert_eq!(rt; out.as_slice(), printed.as_bytes(), "at {line}");
        assert_eq!(rt; err.as_slice(), told.as_bytes(), "at {line}");
        assert_eq!(rt; ended, status, "at {line}");
    }
    Ok(())
}

#[test]
fn bad_arguments_print_nothing(rt: HostRuntime) -> Result<(), Fail> {
    for line in BAD {
        let (out, err, ended) = served(&rt, line, 9, 9)?;
        assert_eq!(rt; out.as_slice(), b"".as_slice(), "at {line}");
        assert_eq!(rt;
            err.as_slice(),
            b"pollrun: bad arguments\n".as_slice(),
            "at {line}"
        );
        assert_eq!(rt; ended, 2, "at {line}");
    }
    Ok(())
}

/// The words that poll a script of so many ones as often.
fn many(rt: &HostRuntime, polls: usize, answers: usize) -> Result<String, Fail> {
    let mut line = format!(in rt.alloc(); "plain {polls} 1")?;
    for _ in 1..answers {
        line.push_str(",1")?;
    }
    Ok(line)
}

#[test]
fn a_thousand_answers_are_the_most(rt: HostRuntime) -> Result<(), Fail> {
    let (out, _, status) = served(&rt, many(&rt, 1000, 1000)?.as_str(), 9, 9)?;
    assert_eq!(rt; status, 0);
    assert_eq!(rt; out.len(), 2000);
    let (out, err, status) = served(&rt, many(&rt, 1000, 1001)?.as_str(), 9, 9)?;
    assert_eq!(rt; status, 2);
    assert_eq!(rt; out.len(), 0);
    assert_eq!(rt; err.as_slice(), b"pollrun: bad arguments\n".as_slice());
    Ok(())
}

#[test]
fn an_output_that_fails_is_told(rt: HostRuntime) -> Result<(), Fail> {
    // One call writes the line, and one flushes it.
    for calls in 0..2 {
        let (_, err, status) = served(&rt, "evens 4 1,P,2,3", calls, 9)?;
        assert_eq!(rt; status, 1, "after {calls} calls");
        assert_eq!(rt;
            err.as_slice(),
            b"pollrun: output failed\n".as_slice(),
            "after {calls} calls"
        );
    }
    let (out, err, status) = served(&rt, "evens 4 1,P,2,3", 2, 0)?;
    assert_eq!(rt; status, 0);
    assert_eq!(rt; out.as_slice(), b"P,2,E,E\n".as_slice());
    assert_eq!(rt; err.len(), 0);
    Ok(())
}

#[test]
fn a_failing_err_changes_no_status(rt: HostRuntime) -> Result<(), Fail> {
    for calls in 0..2 {
        let (out, _, status) = served(&rt, "evens 1001 1", 9, calls)?;
        assert_eq!(rt; status, 2, "after {calls} calls");
        assert_eq!(rt; out.len(), 0, "after {calls} calls");
        let (_, _, status) = served(&rt, "plain 1 1", 0, calls)?;
        assert_eq!(rt; status, 1, "after {calls} calls");
    }
    Ok(())
}
