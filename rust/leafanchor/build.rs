//! Finds libleafanchor.a: in the folder that LEAFANCHOR_LIB_DIR names, else where tools/native.sh writes it. It
//! must be for the machine that the program is built for: its first object says which that is.

use std::convert::TryInto;
use std::path::{Path, PathBuf};
use std::{env, fs, process};

fn main() {
    println!("cargo:rerun-if-env-changed=LEAFANCHOR_LIB_DIR");
    let machine = env::var("CARGO_CFG_TARGET_ARCH").unwrap_or_default();
    let found = match env::var_os("LEAFANCHOR_LIB_DIR") {
        Some(folder) => named(folder.into(), &machine),
        None => made_here(&machine),
    };
    match found {
        Ok(folder) => {
            println!("cargo:rustc-link-search=native={}", folder.display());
            println!("cargo:rustc-link-lib=static=leafanchor");
        }
        Err(sentence) => {
            eprintln!("leafanchor: {sentence}");
            process::exit(1);
        }
    }
}

/// The folder that LEAFANCHOR_LIB_DIR names, or why it does not serve.
fn named(folder: PathBuf, machine: &str) -> Result<PathBuf, String> {
    let shown = folder.display();
    match machine_of(&folder) {
        _ if folder.is_relative() => Err(format!("LEAFANCHOR_LIB_DIR must be a whole path, and is {shown}")),
        Some(other) if other != machine => {
            Err(format!("the library in {shown} (LEAFANCHOR_LIB_DIR) is for {other}, not for {machine}"))
        }
        Some(_) => Ok(folder),
        None => Err(format!("{shown} (LEAFANCHOR_LIB_DIR) has no libleafanchor.a that can be read")),
    }
}

/// The first folder of this checkout whose library is for the machine.
fn made_here(machine: &str) -> Result<PathBuf, String> {
    let target = Path::new(env!("CARGO_MANIFEST_DIR")).join("../../target");
    let folders = ["native".to_string(), "staticlib".to_string(), format!("for-{machine}")];
    let mut folders = folders.iter().map(|name| target.join(name));
    folders.find(|folder| machine_of(folder) == Some(machine)).ok_or_else(|| {
        format!(
            "no libleafanchor.a for {machine} is there: tools/native.sh makes one for x86_64 or aarch64, or \
             LEAFANCHOR_LIB_DIR names its folder"
        )
    })
}

/// The machine of the folder's library, by Rust's name; none where there is no such library.
fn machine_of(folder: &Path) -> Option<&'static str> {
    let library = folder.join("libleafanchor.a");
    println!("cargo:rerun-if-changed={}", library.display());
    let archive = fs::read(library).ok()?;
    let object = first_object(archive.strip_prefix(b"!<arch>\n")?)?;
    let little_64 = object.starts_with(b"\x7fELF\x02\x01");
    Some(match u16::from_le_bytes(object.get(18..20)?.try_into().ok()?) {
        62 if little_64 => "x86_64",
        183 if little_64 => "aarch64",
        _ => "another machine",
    })
}

/// The first member of an archive that is no table of names. A member is a head of 60 bytes, its name at the
/// front and its size in figures from the 48th on, then its bytes, and one more where their number is odd.
fn first_object(mut members: &[u8]) -> Option<&[u8]> {
    loop {
        let (name, figures) = (members.get(..16)?, members.get(48..58)?);
        let size = std::str::from_utf8(figures).ok()?.trim_end().parse::<usize>().ok()?;
        if ![b"/ ".as_slice(), b"// ", b"/SYM64/ "].iter().any(|table| name.starts_with(table)) {
            return members.get(60..)?.get(..size);
        }
        members = members.get(60 + size + size % 2..)?;
    }
}
