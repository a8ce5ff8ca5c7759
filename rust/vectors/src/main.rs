//! `vectors [--write]`: compares what is stored for the program crates with what the plain implementation says, and names
//! each file that differs (status 1). With --write it writes those files anew.

use std::process::exit;
use vectors::stored::{all, differing, root, write};

fn main() {
    let words: Vec<String> = std::env::args().skip(1).collect();
    let writes = match &words[..] {
        [] => false,
        [word] if word == "--write" => true,
        _ => {
            eprintln!("usage: vectors [--write]");
            exit(2);
        }
    };
    exit(run(writes).unwrap_or_else(|error| {
        eprintln!("vectors: {error}");
        2
    }));
}

fn run(writes: bool) -> std::io::Result<i32> {
    let root = root();
    let files = all(&root)?;
    let differing = differing(&root, &files);
    for file in &differing {
        if writes {
            write(&root, file)?;
        }
        let done = if writes { "written" } else { "differs" };
        println!("{done}: {}", file.path);
    }
    println!("{} files, {} differ", files.len(), differing.len());
    Ok(i32::from(!writes && !differing.is_empty()))
}
