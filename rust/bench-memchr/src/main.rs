//! The search rows of the benchmark with one rival more: the crate memchr, whose searches use vector instructions.
use memchr::memmem::Finder;

fn main() {
    // Made once: what it works out of the bytes that it looks for is no part of a search.
    let finder = Finder::new(&[0, 0, 1]);
    let next = move |stream: &[u8], from: usize| {
        let rest = stream.get(from..).unwrap_or(&[]);
        finder.find(rest).map_or(stream.len(), |at| from + at)
    };
    bench::run(&bench::search_rows(&[("Rust's memchr::memmem", &next)]));
}
