
/// Calls the example of RUST.md, which stands above.
fn main() {
    use std::io::Write;

    let words: Vec<String> = std::env::args().skip(1).collect();
    let [host, folder] = words.as_slice() else {
        eprintln!("usage: embed HOST FOLDER");
        std::process::exit(2);
    };
    match link_folder(Path::new(host), Path::new(folder)) {
        Ok(linked) => std::io::stdout().write_all(&linked).expect("room for the file"),
        Err(error) => {
            eprintln!("pslink: {error}");
            std::process::exit(1);
        }
    }
}
