//! Names the C library to the linker: the archives that `CSQ_LIBRARY` names, in the linker's order,
//! with colons between them (a relative path is of the folder from which the build was started; a
//! colon that doesn't follow `.a` is part of a path); otherwise the library that `pkg-config`
//! finds; otherwise, with the feature `plain`, the plain C queue, which the C compiler builds from
//! the repository (`bench/c`): `CC`, or for another machine `CC_<target>` or GNU's for it.
use std::env;
use std::ffi::OsStr;
use std::path::{Path, PathBuf};
use std::process::{Command, ExitCode};

/// An archive, as the linker wants it named.
struct Archive {
    path: String,
    folder: String,
    name: String,
}

/// The folder from which the build was started. Cargo runs this program in the package's folder,
/// and stays where it was started itself; `PWD` has to name that folder too, since by it Cargo sees
/// that a build is started elsewhere.
#[cfg(unix)]
fn started_in() -> Option<PathBuf> {
    let named = PathBuf::from(env::var_os("PWD")?).canonicalize();
    let cargo = format!("/proc/{}/cwd", std::os::unix::process::parent_id());
    let cargo = Path::new(&cargo).canonicalize().ok()?;
    (named.ok()? == cargo).then_some(cargo)
}

#[cfg(not(unix))]
fn started_in() -> Option<PathBuf> {
    None
}

/// The name of a file `libNAME.a`.
fn name_of(path: &Path) -> Option<&str> {
    let name = path.file_name()?.to_str()?;
    let name = name.strip_prefix("lib")?.strip_suffix(".a")?;
    (!name.is_empty()).then_some(name)
}

/// The archive of this path, or why there is none.
fn archive_of(given: &Path) -> Result<Archive, String> {
    let shown = given.display();
    let name = name_of(given).ok_or_else(|| {
        format!(
            "\"{shown}\" is not named as an archive is, lib*.a; between two archives stands a \
             colon, behind the first one's .a"
        )
    })?;
    let path = if given.is_absolute() {
        given.to_path_buf()
    } else {
        println!("cargo:rerun-if-env-changed=PWD");
        let folder = started_in().ok_or_else(|| {
            let advice =
                "is a relative path, and the folder from which the build was started isn't known";
            format!("\"{shown}\" {advice}; give the whole path, as /folder/lib{name}.a")
        })?;
        folder.join(given)
    };
    if !path.is_file() {
        return Err(format!("there is no file \"{}\"", path.display()));
    }
    let text = |path: &Path| {
        let text = path.to_str().map(str::to_string);
        text.ok_or_else(|| format!("\"{}\" is not UTF-8, as Cargo's paths are", path.display()))
    };
    Ok(Archive {
        folder: text(path.parent().unwrap_or(&path))?,
        name: name.to_string(),
        path: text(&path)?,
    })
}

/// The paths of archives with colons between them. A colon that doesn't follow `.a` is part of a
/// path.
fn paths_of(archives: &str) -> Vec<String> {
    let mut paths: Vec<_> = archives.split(".a:").map(str::to_string).collect();
    let last = paths.len() - 1;
    for path in &mut paths[..last] {
        path.push_str(".a");
    }
    paths
}

/// Names the archives to Cargo, all or none.
fn link(archives: &OsStr) -> Result<(), String> {
    let archives = archives
        .to_str()
        .ok_or_else(|| format!("{archives:?} is not UTF-8, as Cargo's paths are"))?;
    let archives = paths_of(archives);
    let archives = archives.iter().map(|path| archive_of(Path::new(path)));
    for archive in archives.collect::<Result<Vec<_>, _>>()? {
        println!("cargo:rerun-if-changed={}", archive.path);
        println!("cargo:rustc-link-search=native={}", archive.folder);
        println!("cargo:rustc-link-lib=static={}", archive.name);
    }
    Ok(())
}

/// The program that this variable names, or this one.
fn program(variable: &str, name: &str) -> Command {
    println!("cargo:rerun-if-env-changed={variable}");
    Command::new(env::var_os(variable).unwrap_or_else(|| name.into()))
}

/// Whether it is built for another machine than this one.
fn crosses() -> bool {
    env::var_os("HOST") != env::var_os("TARGET")
}

/// GNU's name for a target, as its tools have it: without the vendor, and mingw-w64's for Windows.
fn gnu_name(target: &str) -> String {
    match target.strip_suffix("-pc-windows-gnu") {
        Some(machine) => format!("{machine}-w64-mingw32"),
        None => target.replace("-unknown-", "-"),
    }
}

/// A tool for the target: the one that `CC_<target>` names, if the variable is `CC`; otherwise, for
/// this machine, the one that `CC` names, or this one, and for another one GNU's, as
/// `aarch64-linux-gnu-gcc`.
fn tool(variable: &str, own: &str, gnu: &str) -> Command {
    let target = env::var("TARGET").unwrap_or_default();
    for name in [target.replace('-', "_"), target.clone()] {
        let of_target = format!("{variable}_{name}");
        println!("cargo:rerun-if-env-changed={of_target}");
        if let Some(named) = env::var_os(of_target) {
            return Command::new(named);
        }
    }
    if crosses() {
        return Command::new(format!("{}-{gnu}", gnu_name(&target)));
    }
    program(variable, own)
}

/// Names the installed library to Cargo, if pkg-config finds it on this machine, for which it is
/// built too.
fn link_installed() -> bool {
    println!("cargo:rerun-if-env-changed=PKG_CONFIG_PATH");
    if crosses() {
        return false;
    }
    let mut pkg_config = program("PKG_CONFIG", "pkg-config");
    let asked = pkg_config.args(["--variable=libdir", "csq >= 1.1.0"]);
    let found = match asked.output() {
        Ok(output) if output.status.success() => output.stdout,
        _ => return false,
    };
    // As the shell would read it: a space in it stands behind a backslash.
    let folder = String::from_utf8_lossy(&found).trim().replace('\\', "");
    if !Path::new(&folder).join("libcsq.so").is_file() {
        return false;
    }
    println!("cargo:rustc-link-search=native={folder}");
    println!("cargo:rustc-link-lib=dylib=csq");
    true
}

/// Runs a program, or says why it failed.
fn run(command: &mut Command) -> Result<(), String> {
    match command.status() {
        Ok(status) if status.success() => Ok(()),
        Ok(status) => Err(format!("{command:?}: {status}")),
        Err(cause) => Err(format!("{command:?}: {cause}")),
    }
}

/// Builds the plain C queue and names it to Cargo.
fn link_plain() -> Result<(), String> {
    let top = Path::new(env!("CARGO_MANIFEST_DIR")).join("../..");
    let (sources, headers) = (top.join("bench/c"), top.join("include"));
    if !sources.is_dir() {
        let sources = sources.display();
        return Err(format!(
            "there is no folder {sources}: its sources are in the repository, not in the package"
        ));
    }
    let out = PathBuf::from(env::var_os("OUT_DIR").ok_or("OUT_DIR isn't set")?);
    println!("cargo:rerun-if-changed={}", sources.display());
    println!("cargo:rerun-if-changed={}", headers.display());
    let archive = out.join("libcsq_plain.a");
    let mut objects = Vec::new();
    for name in ["plain_queue", "plain_judges", "plain_list", "plain_ledger"] {
        let object = out.join(name).with_extension("o");
        let source = sources.join(name).with_extension("c");
        let mut compiler = tool("CC", "cc", "gcc");
        compiler.args(["-std=c11", "-O2", "-fPIC", "-c", "-I"]);
        run(compiler.arg(&headers).arg(source).arg("-o").arg(&object))?;
        objects.push(object);
    }
    run(tool("AR", "ar", "ar").arg("rcs").arg(archive).args(objects))?;
    println!("cargo:rustc-link-search=native={}", out.display());
    println!("cargo:rustc-link-lib=static=csq_plain");
    Ok(())
}

/// Without the library a build is for its checks alone.
fn warn() {
    println!("cargo:warning=there is no C library: checked without it, so programs won't link");
    println!(
        "cargo:warning=set CSQ_LIBRARY to its archives, install it (c/install), or turn the \
         feature plain on"
    );
}

fn main() -> ExitCode {
    println!("cargo:rerun-if-changed=build.rs");
    println!("cargo:rerun-if-env-changed=CSQ_LIBRARY");
    let named = env::var_os("CSQ_LIBRARY").filter(|archives| !archives.is_empty());
    let linked = match named {
        Some(archives) => link(&archives).map_err(|cause| format!("CSQ_LIBRARY: {cause}")),
        None if link_installed() => Ok(()),
        None if env::var_os("CARGO_FEATURE_PLAIN").is_some() => {
            link_plain().map_err(|cause| format!("feature plain: {cause}"))
        }
        None => {
            warn();
            Ok(())
        }
    };
    match linked {
        Ok(()) => ExitCode::SUCCESS,
        Err(cause) => {
            eprintln!("{cause}");
            ExitCode::FAILURE
        }
    }
}
