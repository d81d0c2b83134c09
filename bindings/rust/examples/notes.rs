//! Inserts a line into a file, after its first one.
use std::fs::File;

fn main() -> std::io::Result<()> {
    let mut rope = ropey::Rope::from_reader(File::open("notes.txt")?)?;
    let start = rope.line_to_char(1);
    rope.insert(start, "a new line\n");
    rope.write_to(File::create("notes.txt")?)?;
    Ok(())
}
