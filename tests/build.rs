//! Links ../target/staticlib/libsinkerjaw.a, which `tools/build` writes, and says which calls it has. Where it is not there
//! yet, everything but the library itself still builds: the self-check needs only what is in Rust.

use std::path::Path;

const CALLS: [&str; 8] = ["read", "check", "offset_check", "plain", "place", "translate", "plan", "run"];

fn main() {
    let folder = Path::new(env!("CARGO_MANIFEST_DIR")).join("../target/staticlib");
    let archive = folder.join("libsinkerjaw.a");
    println!("cargo:rerun-if-changed={}", archive.display());
    println!("cargo:rustc-check-cfg=cfg(linked, values(none(), \"{}\"))", CALLS.join("\", \""));
    let Ok(archive) = std::fs::read(archive) else {
        println!("cargo:warning=built without the library: run `tools/build` first");
        return;
    };
    println!("cargo:rustc-cfg=linked");
    println!("cargo:rustc-link-search=native={}", folder.display());
    println!("cargo:rustc-link-lib=static=sinkerjaw");
    let symbols = symbols(&archive).expect("an archive begins with the names that it defines");
    for call in CALLS {
        let name = format!("sinkerjaw_{call}");
        if symbols.split(|&byte| byte == 0).any(|symbol| symbol == name.as_bytes()) {
            println!("cargo:rustc-cfg=linked=\"{call}\"");
        } else {
            println!("cargo:warning=the library has no {name}");
        }
    }
}

/// What an archive of the usual format defines, each name ended by a zero: its first member, named `/`, has how many there are
/// and where each stands, in four bytes each, most significant first, and then the names.
fn symbols(archive: &[u8]) -> Option<&[u8]> {
    let rest = archive.strip_prefix(b"!<arch>\n")?;
    let (header, rest) = rest.split_at_checked(60)?;
    header.strip_prefix(b"/ ")?;
    let size: usize = std::str::from_utf8(&header[48..58]).ok()?.trim_end().parse().ok()?;
    let (count, rest) = rest.get(..size)?.split_first_chunk()?;
    rest.get(4 * u32::from_be_bytes(*count) as usize..)
}
