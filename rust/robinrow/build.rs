//! Links librobinrow_c.a: the one that ROBINROW_ARCHIVE names, or the one for the target that this repository's tools leave.
//! Where it is missing, or is code for another machine, a sentence says so.
use std::path::{Path, PathBuf};
use std::{env, fs, process};

fn main() {
    println!("cargo:rerun-if-changed=build.rs");
    println!("cargo:rerun-if-env-changed=ROBINROW_ARCHIVE");
    let target = env::var("CARGO_CFG_TARGET_ARCH").expect("cargo names the target");
    let top = Path::new(env!("CARGO_MANIFEST_DIR")).join("../..");
    let named = env::var_os("ROBINROW_ARCHIVE").map(PathBuf::from);
    let native = top.join(format!("target/native/{target}/librobinrow_c.a"));
    let archive = match named {
        Some(path) => path,
        None if target == "x86_64" && !native.exists() => {
            top.join("crates/robinrow_c/out/librobinrow_c.a")
        }
        None => native,
    };
    println!("cargo:rerun-if-changed={}", archive.display());
    let Ok(bytes) = fs::read(&archive) else {
        stop(&format!(
            "the library is missing: {} cannot be read. `bench/native robinrow_c {target}` makes it, at the top of the repository \
             and with the kit's `rt` on the PATH; ROBINROW_ARCHIVE may name another librobinrow_c.a",
            archive.display()
        ));
    };
    match machine(&bytes) {
        None => stop(&format!(
            "{} is no archive of code for a machine that is known here",
            archive.display()
        )),
        Some(machine) if machine != target => stop(&format!(
            "{} is code for {machine}, and the target is {target}: `bench/native robinrow_c {target}` makes the archive for it",
            archive.display()
        )),
        Some(_) => {}
    }
    if archive.file_name() != Some("librobinrow_c.a".as_ref()) {
        stop(&format!(
            "{} has to be named librobinrow_c.a, because the linker looks for that name",
            archive.display()
        ));
    }
    let folder = archive.parent().expect("an archive in a folder");
    println!("cargo:rustc-link-search=native={}", folder.display());
}

fn stop(sentence: &str) -> ! {
    eprintln!("robinrow: {sentence}");
    process::exit(1)
}

/// The machine of the first ELF object in an archive: 60 bytes of header a member, its size in decimal from the 48th.
fn machine(archive: &[u8]) -> Option<&'static str> {
    let mut rest = archive.strip_prefix(b"!<arch>\n")?;
    while rest.len() >= 60 {
        let size = std::str::from_utf8(&rest[48..58]).ok()?;
        let size: usize = size.trim_end().parse().ok()?;
        let member = &rest[60..];
        if member.starts_with(b"\x7fELF") {
            return match u16::from_le_bytes([*member.get(18)?, *member.get(19)?]) {
                62 => Some("x86_64"),
                183 => Some("aarch64"),
                243 => Some("riscv64"),
                _ => None,
            };
        }
        rest = member.get(size + size % 2..)?;
    }
    None
}
