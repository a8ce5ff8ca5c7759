//! What the program `vmdk_check` prints.

const BUFFER: usize = 65_536;

pub fn line(input: &[u8]) -> String {
    if input.len() > BUFFER {
        return "refused 37 0\n".to_string();
    }
    let verdict = plain::check(input);
    match verdict.number {
        0 => format!("accepted {} {}\n", verdict.capacity, verdict.grain_size),
        number => format!("refused {number} {}\n", verdict.place),
    }
}
