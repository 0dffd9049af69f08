//! Programs in safe code that would reach memory they do not hold, or name an arena that is not
//! theirs. Each is compiled against this crate, and must fail with the error that its first line
//! names, of the thing named there, and with no other. `right.rs`, built in the same way, compiles,
//! links and runs.
#![cfg(all(feature = "linux", target_os = "linux"))]

use std::collections::BTreeSet;
use std::env;
use std::ffi::OsString;
use std::fs;
use std::path::{Path, PathBuf};
use std::process::{Command, Output};
use std::time::SystemTime;

/// The three programs that once ended in a segmentation fault.
const FAULTS: [&str; 3] = [
    "give_back_of_the_heap.rs",
    "cloned_layer_settled.rs",
    "heap_block_adopted.rs",
];

struct Compiler {
    /// Where cargo leaves what this test is linked with.
    deps: PathBuf,
    library: PathBuf,
    scratch: PathBuf,
}

impl Compiler {
    /// With the newest library that the right program compiles against.
    fn new(scratch: &Path) -> Compiler {
        let test = env::current_exe().unwrap();
        let deps = test.parent().unwrap();
        let mut found: Vec<(SystemTime, PathBuf)> = fs::read_dir(deps)
            .unwrap()
            .map(|entry| entry.unwrap())
            .filter(|entry| {
                let name = entry.file_name().into_string().unwrap_or_default();
                name.starts_with("libsirqobal-") && name.ends_with(".rlib")
            })
            .map(|entry| (entry.metadata().unwrap().modified().unwrap(), entry.path()))
            .collect();
        found.sort();
        let mut errors = String::new();
        for (_, library) in found.into_iter().rev() {
            let compiler = Compiler {
                deps: deps.to_owned(),
                library,
                scratch: scratch.to_owned(),
            };
            let output = compiler.compile(&program("right.rs"));
            if output.status.success() {
                return compiler;
            }
            errors = String::from_utf8_lossy(&output.stderr).into_owned();
        }
        panic!("no library that right.rs compiles against\n{errors}");
    }

    fn compile(&self, program: &Path) -> Output {
        let rustc = env::var_os("RUSTC").unwrap_or_else(|| OsString::from("rustc"));
        let mut library = OsString::from("sirqobal=");
        library.push(&self.library);
        Command::new(rustc)
            .args(["--edition", "2021", "--crate-type", "bin", "-L"])
            .arg(&self.deps)
            .arg("--extern")
            .arg(library)
            .arg("-o")
            .arg(self.binary(program))
            .arg(program)
            .output()
            .expect("rustc runs")
    }

    fn binary(&self, program: &Path) -> PathBuf {
        self.scratch.join(program.file_stem().unwrap())
    }
}

fn program(name: &str) -> PathBuf {
    Path::new(env!("CARGO_MANIFEST_DIR"))
        .join("tests/must_not_compile")
        .join(name)
}

/// The lines of errors, those that only count the others left out.
fn errors(stderr: &[u8]) -> Vec<String> {
    String::from_utf8_lossy(stderr)
        .lines()
        .filter(|line| line.starts_with("error"))
        .filter(|line| !line.starts_with("error: aborting due to"))
        .map(str::to_owned)
        .collect()
}

#[test]
fn safe_code_reaches_no_memory_of_others() {
    let scratch = env::temp_dir().join(format!("sirqobal-{}", std::process::id()));
    fs::create_dir_all(&scratch).unwrap();
    let compiler = Compiler::new(&scratch);
    let ran = Command::new(compiler.binary(&program("right.rs"))).status();
    assert!(ran.unwrap().success(), "right.rs runs");

    let mut tried = BTreeSet::new();
    for entry in fs::read_dir(program("")).unwrap() {
        let path = entry.unwrap().path();
        let name = path.file_name().unwrap().to_str().unwrap().to_owned();
        if name == "right.rs" {
            continue;
        }
        let text = fs::read_to_string(&path).unwrap();
        assert!(text.contains("#![forbid(unsafe_code)]"), "{name}");
        let expected = text.lines().next().and_then(|l| l.strip_prefix("// "));
        let (code, what) = expected.unwrap().split_once(": ").unwrap();
        let output = compiler.compile(&path);
        assert!(!output.status.success(), "{name} compiles");
        let errors = errors(&output.stderr);
        let fits = |error: &String| error.starts_with(code) && error.contains(what);
        assert!(
            !errors.is_empty() && errors.iter().all(fits),
            "{name}: expected {code} of {what}, got {errors:#?}"
        );
        tried.insert(name);
    }
    assert!(FAULTS.iter().all(|name| tried.contains(*name)), "{tried:?}");
    fs::remove_dir_all(&scratch).unwrap();
}
