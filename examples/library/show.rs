//! Prints all rows of a debug file as JSON: show FILE. It is built by rustc alone.
use std::io::Write;

#[repr(C)]
struct Piece {
    start: usize,
    name_length: usize,
    length: usize,
}

#[link(name = "ppdb")]
unsafe extern "C" {
    fn ppdb_run(
        words: *const u8,
        words_length: usize,
        files: *const u8,
        files_length: usize,
        pieces: *const Piece,
        count: usize,
        text: *mut u8,
        text_room: usize,
        text_needed: *mut usize,
        made: *mut u8,
        made_room: usize,
        made_needed: *mut usize,
    ) -> u8;
}

/// The status and the text of a command over one file, whose name is `P`.
fn run(words: &[u8], file: &[u8]) -> (u8, Vec<u8>) {
    let files = [b"P", file].concat();
    let piece = Piece { start: 0, name_length: 1, length: file.len() };
    let mut text = Vec::new();
    loop {
        let (mut needed, mut made_needed) = (0, 0);
        // The pointers of slices and vectors are never null, also where they have no items.
        let status = unsafe {
            ppdb_run(
                words.as_ptr(),
                words.len(),
                files.as_ptr(),
                files.len(),
                &piece,
                1,
                text.as_mut_ptr(),
                text.len(),
                &mut needed,
                [].as_mut_ptr(),
                0,
                &mut made_needed,
            )
        };
        if needed == text.len() {
            return (status, text);
        }
        text = vec![0; needed];
    }
}

fn main() {
    let name = std::env::args().nth(1).expect("the words are: show FILE");
    let file = std::fs::read(&name).expect("the file is read");
    let (status, text) = run(b"show\0P\0--json\0", &file);
    std::io::stdout().write_all(&text).expect("the text is written");
    std::process::exit(status.into());
}
