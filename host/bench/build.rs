//! Links what is measured beside the library itself.

include!("../archive.rs");

fn main() {
    link_archive("bench_octets", "make target/staticlib/libbench_octets.a");
}
