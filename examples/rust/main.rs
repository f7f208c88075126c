// Serves a constraint file given by its path, and prints the answers.
use std::io::Write;

unsafe extern "C" {
    fn netread_serve(input: *const u8, input_len: usize, output: *mut u8, output_len: usize) -> usize;
}

// What netread prints for the input, or nothing where memory is wanting.
fn serve(input: &[u8]) -> Option<Vec<u8>> {
    let mut output = vec![0u8; 4096];
    loop {
        let room = output.len();
        let need = unsafe { netread_serve(input.as_ptr(), input.len(), output.as_mut_ptr(), room) };
        if need == usize::MAX {
            return None;
        }
        if need <= room {
            output.truncate(need);
            return Some(output);
        }
        output.resize(need, 0);
    }
}

fn main() {
    let path = std::env::args().nth(1).expect("usage: main FILE");
    let input = std::fs::read(path).expect("the file can be read");
    let printed = serve(&input).expect("memory");
    std::io::stdout().write_all(&printed).expect("output");
}
