//! All rows of the benchmark.

fn main() {
    bench::run(&bench::all_rows());
}
