//! `patch FILE OUT FROM TO`: a copy of a library in which the f64 FROM is TO, wherever its bytes are. Exit status 3 where they are nowhere.

fn main() {
    let args: Vec<String> = std::env::args().skip(1).collect();
    let [file, out, from, to] = args.as_slice() else {
        eprintln!("usage: patch FILE OUT FROM TO");
        std::process::exit(2);
    };
    let pattern = |text: &str| text.parse::<f64>().expect("a number").to_le_bytes();
    let (from, to) = (pattern(from), pattern(to));
    let mut data = std::fs::read(file).unwrap_or_else(|e| panic!("{file}: {e}"));
    let places: Vec<usize> = (0..data.len().saturating_sub(7)).filter(|&k| data[k..k + 8] == from).collect();
    for &k in &places {
        data[k..k + 8].copy_from_slice(&to);
    }
    if places.is_empty() {
        std::process::exit(3);
    }
    std::fs::write(out, data).unwrap_or_else(|e| panic!("{out}: {e}"));
}
