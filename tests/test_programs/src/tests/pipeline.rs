//! What no clause says: which line an error of the output names. Each error is also met once.
use example_pipeline::fault::{Cause, PipelineError};
use example_pipeline::pipeline::run;
use futures_lite::future::BlockOn;
use futures_lite::io::{BufReader, BufWriter};
use lite_mock::{Marks, Order, Takes};
use programs::ProgramError;
use std::io::ErrorKind;
use std::test::Fail;

/// Three windows, of which the last is not full.
const NUMBERS: &[u8] = b"2\n4\n6\n1\n8\n10\n12\r\n14";

// Returns that a run did not end as it has to.
fn another() -> Fail {
    Fail::from("another line, cause or end")
}

#[test]
fn sums_are_written_as_lines(rt: HostRuntime) -> Result<(), Fail> {
    let (mut on, mut reader, mut output) = (BlockOn::new(&rt)?, NUMBERS, Vec::new(rt.alloc()));
    match run(&mut on.waits(), &rt, &mut reader, &mut output) {
        Ok(()) => assert_eq!(rt; output.as_slice(), b"12\n30\n14\n".as_slice()),
        Err(_) => return Err(another()),
    }
    Ok(())
}

#[test]
fn a_bad_line_is_behind_all_sums(rt: HostRuntime) -> Result<(), Fail> {
    let mut on = BlockOn::new(&rt)?;
    for bad in [b"2\n4\nx\n6\n".as_slice(), b"2\n4\n\xff\n6\n", b"2\n4\n\n"] {
        let (mut reader, mut output) = (bad, Vec::new(rt.alloc()));
        match run(&mut on.waits(), &rt, &mut reader, &mut output) {
            Err(
                PipelineError {
                    line: 3,
                    cause: Cause::NotANumber | Cause::NotUtf8,
                },
            ) => assert_eq!(rt; output.as_slice(), b"6\n".as_slice()),
            _ => return Err(another()),
        }
    }
    Ok(())
}

#[test]
fn an_error_of_the_input_is_behind_the_full_windows(rt: HostRuntime) -> Result<(), Fail> {
    let mut told = Marks::new(rt.alloc());
    told.chunk(b"2\n4\n6\n8\n1")?;
    told.fault(ErrorKind::ConnectionReset)?;
    told.chunk(b"0\n")?;
    let Ok(mut reader) = BufReader::with_capacity(rt.alloc(), 4, told) else {
        return Err(Fail::from("no memory"));
    };
    let (mut on, mut output) = (BlockOn::new(&rt)?, Vec::new(rt.alloc()));
    match run(&mut on.waits(), &rt, &mut reader, &mut output) {
        Err(
            PipelineError {
                line: 5,
                cause: Cause::Input(e),
            },
        ) => assert_eq!(rt; e.kind(), ErrorKind::ConnectionReset),
        _ => return Err(another()),
    }
    assert_eq!(rt; output.as_slice(), b"12\n".as_slice());
    Ok(())
}

#[test]
fn an_error_of_the_output_names_the_last_line(rt: HostRuntime) -> Result<(), Fail> {
    for kind in [ErrorKind::BrokenPipe, ErrorKind::ConnectionReset] {
        let mut taken = Takes::new(rt.alloc());
        taken.order(Order::Fail(kind))?;
        let Ok(mut writer) = BufWriter::with_capacity(rt.alloc(), 4, &mut taken) else {
            return Err(Fail::from("no memory"));
        };
        let (mut on, mut reader) = (BlockOn::new(&rt)?, NUMBERS);
        match run(&mut on.waits(), &rt, &mut reader, &mut writer) {
            Err(e) => {
                assert_eq!(rt; e.line, 7);
                assert_eq!(rt; e.is_broken_pipe(), kind == ErrorKind::BrokenPipe);
            }
            Ok(()) => return Err(another()),
        }
    }
    Ok(())
}
