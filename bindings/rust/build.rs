//! Links `libfinialbasil.a`: from the folder that `FINIALBASIL_LIB_DIR` names, and from no other; where that is not
//! set, from `lib` beside this file, as in a delivery, else from where `make archive` writes it in the repository.
use std::env;
use std::path::PathBuf;
use std::process::ExitCode;

const ARCHIVE: &str = "libfinialbasil.a";

fn main() -> ExitCode {
    println!("cargo:rerun-if-env-changed=FINIALBASIL_LIB_DIR");
    match folder() {
        Ok(folder) => {
            println!("cargo:rerun-if-changed={}", folder.join(ARCHIVE).display());
            println!("cargo:rustc-link-search=native={}", folder.display());
            println!("cargo:rustc-link-lib=static=finialbasil");
            ExitCode::SUCCESS
        }
        Err(why) => {
            eprintln!("{why}");
            ExitCode::FAILURE
        }
    }
}

/// The folder with the archive, or a sentence that says why there is none.
fn folder() -> Result<PathBuf, String> {
    let target = |part| env::var(format!("CARGO_CFG_TARGET_{part}")).unwrap_or_default();
    let target = format!("{} {}", target("ARCH"), target("OS"));
    if target != "x86_64 linux" {
        return Err(format!(
            "{ARCHIVE} is for x86_64 linux, and this build is for {target}."
        ));
    }
    // A relative folder is taken from here, and not from wherever the linker runs.
    let here = PathBuf::from(env::var_os("CARGO_MANIFEST_DIR").unwrap_or_default());
    let has_archive = |folder: &PathBuf| folder.join(ARCHIVE).is_file();
    if let Some(named) = env::var_os("FINIALBASIL_LIB_DIR") {
        let named = here.join(named);
        return if has_archive(&named) {
            Ok(named)
        } else {
            Err(format!(
                "FINIALBASIL_LIB_DIR names {}, where there is no {ARCHIVE}.",
                named.display()
            ))
        };
    }
    [here.join("lib"), here.join("../../target/staticlib")]
        .into_iter()
        .find(has_archive)
        .ok_or(format!(
            "There is no {ARCHIVE}: name its folder in FINIALBASIL_LIB_DIR, or in the repository run `make archive`."
        ))
}
