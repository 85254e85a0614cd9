fn main() {
    for (feature, library) in [("CARGO_FEATURE_XXHASH", "xxhash"), ("CARGO_FEATURE_LMDB", "lmdb")] {
        if std::env::var_os(feature).is_some() {
            println!("cargo:rustc-link-lib=static={library}");
            println!("cargo:rustc-link-search=native=/usr/lib/x86_64-linux-gnu");
        }
    }
}
