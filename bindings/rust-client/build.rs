//! Links the compiled, proved archive of this crate. It is looked for in this order:
//!
//! 1. in the folder that the environment variable `RAZIDKOT_LIB_DIR` names, if it is set;
//! 2. in the repository, if the crate stands in it: `./prove` writes it there;
//! 3. where pkg-config says that the crate's own version is installed.
//!
//! The crates of the service and of the client have this same file, and their manifests tell them
//! apart: `links` names the Rattle crate, the package's name is that of the pkg-config file.

use std::env;
use std::path::{Path, PathBuf};
use std::process::Command;

const LIB_DIR: &str = "RAZIDKOT_LIB_DIR";

fn main() {
    let inputs = [
        LIB_DIR,
        "PKG_CONFIG",
        "PKG_CONFIG_PATH",
        "PKG_CONFIG_LIBDIR",
    ];
    for variable in inputs {
        println!("cargo::rerun-if-env-changed={variable}");
    }
    match Archive::of_this_crate().folder() {
        Ok(found) => found.link(),
        Err(reason) => println!("cargo::error={}", reason.replace('\n', " ")),
    }
}

/// The archive that is looked for, by all its names.
struct Archive {
    /// The Rattle crate; in the repository the archive has its name.
    rattle_crate: String,
    /// The pkg-config file.
    package: String,
    /// The installed library.
    library: String,
}

/// A library in a folder where its archive is.
struct Found {
    folder: PathBuf,
    library: String,
}

impl Found {
    fn link(&self) {
        let archive = self.folder.join(file_of(&self.library));
        println!("cargo::rerun-if-changed={}", archive.display());
        println!("cargo::rustc-link-search=native={}", self.folder.display());
        println!("cargo::rustc-link-lib=static={}", self.library);
    }
}

fn file_of(library: &str) -> String {
    format!("lib{library}.a")
}

/// What cargo tells a build script.
fn told(variable: &str) -> String {
    env::var(variable).unwrap_or_else(|_| panic!("cargo sets {variable}"))
}

impl Archive {
    fn of_this_crate() -> Archive {
        let package = told("CARGO_PKG_NAME");
        Archive {
            rattle_crate: told("CARGO_MANIFEST_LINKS"),
            library: package.replace('-', "_"),
            package,
        }
    }

    fn folder(&self) -> Result<Found, String> {
        if let Some(folder) = env::var_os(LIB_DIR) {
            return self.in_lib_dir(Path::new(&folder));
        }
        let repository = Path::new(&told("CARGO_MANIFEST_DIR")).join("../..");
        if repository.join("crates").join(&self.rattle_crate).exists() {
            return self.in_repository(&repository);
        }
        self.installed()
    }

    /// The library of that name in the folder, if its archive is there.
    fn found(folder: &Path, library: &str) -> Option<Found> {
        folder.join(file_of(library)).exists().then(|| Found {
            folder: folder.to_path_buf(),
            library: library.to_string(),
        })
    }

    /// Under the name that it is installed by, or under that which the repository gives it.
    fn in_lib_dir(&self, folder: &Path) -> Result<Found, String> {
        // From here and from the linker's folder it would be two.
        if folder.is_relative() {
            return Err(format!("{LIB_DIR} has to begin with /"));
        }
        let names = [&self.library, &self.rattle_crate];
        let found = names.into_iter().find_map(|name| Self::found(folder, name));
        found.ok_or_else(|| {
            let [installed, built] = names.map(|name| file_of(name));
            let folder = folder.display();
            format!("{LIB_DIR} is {folder}, where neither {installed} nor {built} is")
        })
    }

    /// An archive that is installed beside it is not taken: it may be another's.
    fn in_repository(&self, repository: &Path) -> Result<Found, String> {
        let name = &self.rattle_crate;
        let found = Self::found(&repository.join("target/staticlib"), name);
        found
            .ok_or_else(|| format!("target/staticlib/lib{name}.a is missing: run `./prove {name}`"))
    }

    fn installed(&self) -> Result<Found, String> {
        let version = told("CARGO_PKG_VERSION");
        let how = |reason: String| {
            format!(
                "{file} of version {version} was not found. Set {LIB_DIR} to the folder that it is in, or install it \
                 (`make install` in Razidkot's repository) where pkg-config finds {package}.pc: {reason}",
                file = file_of(&self.library),
                package = self.package,
            )
        };
        let folder = ask_pkg_config(&format!("{} = {version}", self.package)).map_err(how)?;
        Self::found(&folder, &self.library)
            .ok_or_else(|| how(format!("it is not in {}", folder.display())))
    }
}

/// The folder of that package's library.
fn ask_pkg_config(package: &str) -> Result<PathBuf, String> {
    let program = env::var_os("PKG_CONFIG").unwrap_or_else(|| "pkg-config".into());
    let output = Command::new(&program)
        .args(["--print-errors", "--variable=libdir", package])
        .output()
        .map_err(|error| format!("{}: {error}", program.to_string_lossy()))?;
    if !output.status.success() {
        return Err(String::from_utf8_lossy(&output.stderr).trim().to_string());
    }
    Ok(PathBuf::from(
        String::from_utf8_lossy(&output.stdout).trim(),
    ))
}
