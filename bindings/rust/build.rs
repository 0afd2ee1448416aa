//! Finds the C library: in the folder that `JICHURPA_LIB_DIR` names, or by pkg-config.

use std::env;
use std::path::Path;
use std::process::Command;

fn main() {
    println!("cargo::rerun-if-env-changed=JICHURPA_LIB_DIR");
    println!("cargo::rerun-if-env-changed=PKG_CONFIG_PATH");
    let found = match env::var("JICHURPA_LIB_DIR") {
        Ok(folder) => link_from(&folder),
        Err(_) => link_by_pkg_config(),
    };
    if let Err(missing) = found {
        println!("cargo::error={missing}");
    }
}

/// Links the library in a folder: the static one where it is there, and else the shared one.
fn link_from(folder: &str) -> Result<(), String> {
    for (file, kind) in
        [("libjichurpa.a", "static"), ("libjichurpa.so", "dylib"), ("libjichurpa.dylib", "dylib")]
    {
        let path = Path::new(folder).join(file);
        if path.is_file() {
            println!("cargo::rerun-if-changed={}", path.display());
            println!("cargo::rustc-link-search=native={folder}");
            println!("cargo::rustc-link-lib={kind}=jichurpa");
            return Ok(());
        }
    }
    Err(format!(
        "the folder {folder}, which JICHURPA_LIB_DIR names, has neither libjichurpa.a nor libjichurpa.so"
    ))
}

/// Links what pkg-config says of the package `jichurpa`.
fn link_by_pkg_config() -> Result<(), String> {
    let missing = "the C library jichurpa is missing: set JICHURPA_LIB_DIR to the folder of libjichurpa.a, or install it \
                   where pkg-config finds jichurpa.pc (PKG_CONFIG_PATH)";
    let program = env::var("PKG_CONFIG").unwrap_or_else(|_| "pkg-config".to_string());
    let output = Command::new(program).args(["--libs", "jichurpa"]).output();
    let Some(output) = output.ok().filter(|output| output.status.success()) else {
        return Err(missing.to_string());
    };
    for word in words(&String::from_utf8_lossy(&output.stdout)) {
        if let Some(folder) = word.strip_prefix("-L") {
            println!("cargo::rustc-link-search=native={folder}");
        } else if let Some(library) = word.strip_prefix("-l") {
            println!("cargo::rustc-link-lib={library}");
        }
    }
    Ok(())
}

/// The words of a line of pkg-config, where a backslash stands before a space that belongs to a word.
fn words(line: &str) -> Vec<String> {
    let mut words = vec![String::new()];
    let mut letters = line.trim().chars();
    while let Some(letter) = letters.next() {
        match letter {
            '\\' => words.last_mut().expect("it is never empty").extend(letters.next()),
            letter if letter.is_whitespace() => words.push(String::new()),
            letter => words.last_mut().expect("it is never empty").push(letter),
        }
    }
    words
}
