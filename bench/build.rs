//! Links each program with the archives of the port that the environment names.

/// The programs, and the variables that name what they are linked with.
const PROGRAMS: [(&str, &[&str]); 2] = [
    ("shard-bench", &["BENCH_CALLS", "XET_HEAP"]),
    ("merges", &["XET_ARCHIVE"]),
];

fn main() {
    for (program, names) in PROGRAMS {
        for name in names {
            println!("cargo:rerun-if-env-changed={name}");
            // run.sh sets those of the program that it runs.
            if let Ok(archive) = std::env::var(name) {
                println!("cargo:rerun-if-changed={archive}");
                println!("cargo:rustc-link-arg-bin={program}={archive}");
            }
        }
    }
}
