//! Where libinfer_types.a stands, which `host/archive` writes: the folder ARCHIVE, or the repository's.

fn main() {
    let folder = std::env::var("ARCHIVE").unwrap_or_else(|_| "../../target/staticlib".into());
    let folder = std::env::current_dir().expect("the package's folder").join(folder);
    let archive = folder.join("libinfer_types.a");
    println!("cargo:rerun-if-env-changed=ARCHIVE");
    println!("cargo:rerun-if-changed={}", archive.display());
    println!("cargo:rustc-link-search=native={}", folder.display());
    if !archive.is_file() {
        eprintln!(
            "{} is missing: run `host/archive` in the repository, or set ARCHIVE to its folder",
            archive.display()
        );
        std::process::exit(1);
    }
}
