//! Writes the original's text into OUT_DIR, from where the crate compiles it, after its check sums
//! were compared (`sha256sum --check`).
//!
//! Compiled whole and unchanged: types.rs (where it stands), slice_pool.rs, bins.rs, os.rs and
//! arena.rs (copies). Added to the copies, and nothing else:
//! - after the last line of each, the text of a file in `appended/`: the way to private state, and
//!   for os.rs the function `purge`, which the published text lacks. The published os.rs and bins.rs
//!   end in the doc comment of an item that was cut off; the first appended item takes it.
//! - in arena.rs, one line behind `static RESERVE`, which stands inside a function: it tells where
//!   this static is, since nothing outside the function can name it.
//!
//! Beside the whole os.rs, its `page_align_up` is compiled alone: the whole file aborts the process
//! at page size 0, and the function's own text does not.

use std::path::{Path, PathBuf};
use std::process::Command;
use std::{env, fs};

const RESERVE: &str = "    static RESERVE: AtomicUsize = AtomicUsize::new(0);";
const REACH_RESERVE: &str = "    reach_reserve(&RESERVE); // inserted by rust/oracle/build.rs";

const NOT_YET_DUE: &str = "if !force && due.wrapping_sub(now) < u32::MAX / 2 && due != now {";

fn main() {
    let manifest = PathBuf::from(variable("CARGO_MANIFEST_DIR"));
    let third_party = manifest.join("../../third_party/rusty_alloc");
    check_sums(&third_party);
    let original = third_party.join("src");
    let original = original
        .canonicalize()
        .unwrap_or_else(|e| panic!("{}: {e}", original.display()));
    let out = PathBuf::from(variable("OUT_DIR"));
    let appended = manifest.join("appended");

    // The original chooses other geometries by these; here none of them is set.
    println!("cargo::rustc-check-cfg=cfg(ra_small_profile)");
    println!("cargo::rustc-check-cfg=cfg(ra_small_wsize, values(\"256\", \"512\"))");
    println!("cargo::rustc-check-cfg=cfg(ra_segment_size, values(\"256k\"))");

    for name in ["slice_pool.rs", "bins.rs"] {
        let whole = Source::read(&original, name).text;
        write(&out, name, &(whole + &Source::read(&appended, name).text));
    }

    let os = Source::read(&original, "os.rs");
    let page_align_up = os.function("pub fn page_align_up(size: usize) -> usize {");
    write(&out, "page_align_up.rs", &page_align_up);
    let appended_os = Source::read(&appended, "os.rs").text;
    write(&out, "os.rs", &(os.text + &appended_os));

    let arena = Source::read(&original, "arena.rs");
    let purge_due = Source {
        name: "arena.rs, purge_due",
        text: arena.function("pub fn purge_due(force: bool) -> usize {"),
    };
    let condition = purge_due.condition(NOT_YET_DUE);
    let appended_arena = Source::read(&appended, "arena.rs").text;
    let whole = arena.with_line_after(RESERVE, REACH_RESERVE);
    let not_yet_due = format!(
        "\n/// The condition of `purge_due`.\n\
         pub fn not_yet_due(force: bool, due: u32, now: u32) -> bool {{\n    {condition}\n}}\n"
    );
    write(&out, "arena.rs", &(whole + &appended_arena + &not_yet_due));

    // Real modules: an inner doc comment may not stand in an included file (E0753).
    let types = original.join("types.rs");
    println!("cargo::rerun-if-changed={}", types.display());
    let mut mods = format!("{MODULE}#[path = {types:?}]\npub mod types;\n");
    for name in ["slice_pool", "bins", "os", "arena"] {
        let path = out.join(format!("{name}.rs"));
        mods += &format!("{MODULE}#[path = {path:?}]\npub mod {name};\n");
    }
    write(&out, "mods.rs", &mods);
}

/// What the original's lints and links would say here does not concern this crate.
const MODULE: &str = "#[doc(hidden)]\n#[allow(rustdoc::all, dead_code, unexpected_cfgs)]\n";

/// The text is the published one, byte for byte.
fn check_sums(folder: &Path) {
    println!(
        "cargo::rerun-if-changed={}",
        folder.join("SHA256SUMS").display()
    );
    let check = Command::new("sha256sum")
        .args(["--check", "--quiet", "SHA256SUMS"])
        .current_dir(folder)
        .status();
    match check {
        Ok(status) if status.success() => {}
        other => panic!("{}: sha256sum: {other:?}", folder.display()),
    }
}

/// One file of the original, or a part of one.
struct Source {
    name: &'static str,
    text: String,
}

impl Source {
    fn read(folder: &Path, name: &'static str) -> Source {
        let path = folder.join(name);
        println!("cargo::rerun-if-changed={}", path.display());
        let text = fs::read_to_string(&path).unwrap_or_else(|e| panic!("{}: {e}", path.display()));
        Source { name, text }
    }

    /// The whole text with one line more, behind the one line that is `after`.
    fn with_line_after(&self, after: &str, more: &str) -> String {
        let at = self.only(after, |line| line == after);
        let mut lines: Vec<&str> = self.text.lines().collect();
        lines.insert(at + 1, more);
        lines.join("\n") + "\n"
    }

    /// The function that starts with this line, through the first line that is exactly `}`.
    fn function(&self, first: &str) -> String {
        let lines: Vec<&str> = self.text.lines().collect();
        let start = self.only(first, |line| line == first);
        let length = lines[start..]
            .iter()
            .position(|line| *line == "}")
            .unwrap_or_else(|| panic!("{}: `{first}` does not end", self.name));
        lines[start..=start + length].join("\n") + "\n"
    }

    /// What stands between `if` and `{` in this line.
    fn condition(&self, line: &str) -> &str {
        let at = self.only(line, |l| l.trim() == line);
        let text = self.text.lines().nth(at).unwrap_or_default().trim();
        text.strip_prefix("if ")
            .and_then(|rest| rest.strip_suffix(" {"))
            .unwrap_or_else(|| panic!("{}: `{line}` is no condition", self.name))
    }

    /// The number of the one line that fits.
    fn only(&self, wanted: &str, fits: impl Fn(&str) -> bool) -> usize {
        let found: Vec<usize> = (0..)
            .zip(self.text.lines())
            .filter_map(|(n, line)| fits(line).then_some(n))
            .collect();
        match found[..] {
            [one] => one,
            _ => panic!("{}: `{wanted}` stands {} times", self.name, found.len()),
        }
    }
}

fn write(folder: &Path, name: &str, text: &str) {
    let path = folder.join(name);
    fs::write(&path, text).unwrap_or_else(|e| panic!("{}: {e}", path.display()));
}

fn variable(name: &str) -> String {
    env::var(name).unwrap_or_else(|e| panic!("{name}: {e}"))
}
