//! The texts of errors, which no clause has.
use framed::FramesError;
use serving::ServingError;
use std::io::ErrorKind;
use std::test::Fail;

#[test]
fn errors_of_lent_frames_say_why(rt: HostRuntime) -> Result<(), Fail> {
    let kind = ErrorKind::BrokenPipe;
    let no_frame = FramesError::NoFrame("too long");
    assert_eq!(rt; format!(in rt.alloc(); "{no_frame}")?.as_str(), "too long");
    let read: FramesError<&str> = FramesError::Reader(kind);
    assert_eq!(rt;
        format!(in rt.alloc(); "{read}")?,
        format!(in rt.alloc(); "{kind}")?
    );
    let full: FramesError<&str> = FramesError::OutOfMemory;
    assert_eq!(rt; format!(in rt.alloc(); "{full}")?.as_str(), "out of memory");
    Ok(())
}

#[test]
fn errors_of_a_server_of_lent_frames_say_which_side_failed(rt: HostRuntime) -> Result<(), Fail> {
    let kind = ErrorKind::BrokenPipe;
    let input = ServingError::Input(FramesError::NoFrame("too long"));
    assert_eq!(rt;
        format!(in rt.alloc(); "{input}")?.as_str(),
        "cannot read: too long"
    );
    let output: ServingError<&str> = ServingError::Output(kind);
    let wanted = format!(in rt.alloc(); "cannot write: {kind}")?;
    assert_eq!(rt; format!(in rt.alloc(); "{output}")?, wanted);
    let full: ServingError<&str> = ServingError::OutOfMemory;
    assert_eq!(rt; format!(in rt.alloc(); "{full}")?.as_str(), "out of memory");
    Ok(())
}
