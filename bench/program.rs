//! Times the program `constriction` on a million symbols, as a whole process; a C program that reads and
//! parses the same bytes; and one that also writes as many numbers.
//!
//! The arguments are the two programs and a folder for the texts. Prints for each command its milliseconds,
//! those of the C program that reads and parses, the ratio, those of the C
//! program that also writes, and the ratio. Each time is the least of RUNS runs.

mod input;

use input::{COUNT, drawn_symbols, weights};
use std::{
    fmt::Display,
    fs::{self, File},
    path::Path,
    process::{Command, Stdio},
    time::Instant,
};

const RUNS: usize = 21;

/// Returns the numbers, separated by spaces, and a line feed.
fn line(numbers: impl IntoIterator<Item = impl Display>) -> String {
    let words: Vec<String> = numbers
        .into_iter()
        .map(|number| number.to_string())
        .collect();
    words.join(" ") + "\n"
}

/// Returns the least time in milliseconds in which the program reads the file and writes another one.
fn least(program: &str, args: &[&str], input: &Path, output: &Path) -> f64 {
    let mut least = f64::INFINITY;
    for _ in 0..RUNS {
        let mut command = Command::new(program);
        command
            .args(args)
            .stdin(File::open(input).unwrap())
            .stdout(Stdio::from(File::create(output).unwrap()));
        let start = Instant::now();
        let status = command.status().unwrap();
        least = least.min(start.elapsed().as_secs_f64() * 1000.0);
        assert!(status.success(), "{program} answered {status}");
    }
    least
}

fn main() {
    let args: Vec<String> = std::env::args().skip(1).collect();
    let [program, plain, folder] = args.as_slice() else {
        panic!("usage: program CONSTRICTION PLAIN FOLDER");
    };
    let folder = Path::new(folder);
    let symbols = line(drawn_symbols());
    let table = line(weights(24));

    let to_encode = folder.join("to_encode.txt");
    let encoded = folder.join("encoded.txt");
    fs::write(&to_encode, table.clone() + &symbols).unwrap();
    let encode = least(program, &["ans-encode"], &to_encode, &encoded);

    let to_decode = folder.join("to_decode.txt");
    let decoded = folder.join("decoded.txt");
    let words = fs::read_to_string(&encoded).unwrap();
    fs::write(&to_decode, table + &COUNT.to_string() + " " + &words).unwrap();
    let decode = least(program, &["ans-decode"], &to_decode, &decoded);
    assert!(fs::read_to_string(&decoded).unwrap() == symbols);

    let words_written = words.split_whitespace().count();
    for (name, time, input, written, limit) in [
        ("ans-encode", encode, &to_encode, words_written, 1u64 << 32),
        ("ans-decode", decode, &to_decode, COUNT, 256),
    ] {
        let output = folder.join("parsed.txt");
        let parsing = least(plain, &[], input, &output);
        let (written, limit) = (written.to_string(), limit.to_string());
        let copying = least(plain, &[&written, &limit], input, &output);
        println!(
            "{name} {time:.2} {parsing:.2} {:.2} {copying:.2} {:.2}",
            time / parsing,
            time / copying
        );
    }
}
