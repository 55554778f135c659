use lite_bridge::AssertAsync;
use lite_io_base::{CalmRead, CalmWrite, SteadyRead, SteadyWrite};
use std::io::Cursor;
use std::test::Fail;

/// Asks for the marks of a reader.
fn reader<R: SteadyRead + CalmRead>(reader: &R) {
    reader.is_steady_read();
    reader.is_calm_read();
}

/// Asks for the marks of a writer.
fn writer<W: SteadyWrite + CalmWrite>(writer: &W) {
    writer.is_steady_write();
    writer.is_calm_write();
}

#[test]
fn what_std_reads_and_writes_is_never_pending(rt: HostRuntime) -> Result<(), Fail> {
    let text: &[u8] = b"ab";
    reader(&AssertAsync::new(text));
    reader(&AssertAsync::new(Cursor::new(text)));
    writer(&AssertAsync::new(Vec::<u8>::new(rt.alloc())));
    Ok(())
}
