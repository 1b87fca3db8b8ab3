//! As `in_process.c`, in Rust. Usage: in_process TURNS link|check HOST [LIB]...

use std::hint::black_box;
use std::time::Instant;

fn files_of(files: &[Vec<u8>]) -> (pslink::File<'_>, Vec<pslink::File<'_>>) {
    let (host, libs) = files.split_first().expect("a host");
    (host.into(), libs.iter().map(pslink::File::from).collect())
}

fn link_once(files: &[Vec<u8>]) {
    let (host, libs) = files_of(files);
    match black_box(pslink::link(host, libs)) {
        Ok(_) | Err(pslink::Error::Refused(_)) => (),
        Err(error) => panic!("{error}"),
    }
}

fn check_once(files: &[Vec<u8>]) {
    let (host, libs) = files_of(files);
    black_box(pslink::check(host, libs)).expect("a report");
}

fn main() {
    let mut args = std::env::args().skip(1);
    let turns: u32 = args.next().and_then(|turns| turns.parse().ok()).expect("a number of turns");
    let call = if args.next().as_deref() == Some("check") { check_once } else { link_once };
    let files: Vec<Vec<u8>> = args.map(|path| std::fs::read(path).expect("a file")).collect();
    let start = Instant::now();
    for _ in 0..turns {
        call(&files);
    }
    println!("{:.2}", start.elapsed().as_secs_f64() * 1e6 / f64::from(turns));
}
