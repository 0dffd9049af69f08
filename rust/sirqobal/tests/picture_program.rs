//! The program `picture`, on tables that are sound, broken and none.

use sirqobal::{saved, Layer, Moment, CHUNK};
use std::env;
use std::fs;
use std::io::Write;
use std::process::{Command, Output, Stdio};

fn picture(arguments: &[&str], input: &[u8]) -> Output {
    let mut child = Command::new(env!("CARGO_BIN_EXE_picture"))
        .args(arguments)
        .stdin(Stdio::piped())
        .stdout(Stdio::piped())
        .stderr(Stdio::piped())
        .spawn()
        .unwrap();
    // It may end before it has read everything.
    let _ = child.stdin.take().unwrap().write_all(input);
    child.wait_with_output().unwrap()
}

fn table() -> Layer {
    let now = Moment::default();
    let mut layer = Layer::new();
    layer.adopt_os_block(now, 1 << 30, 66 * CHUNK).unwrap();
    layer.chunk_alloc_n(now, 0, 65).done().unwrap();
    layer.chunk_release(now, 1 << 30, 2, None, true).unwrap();
    layer
}

#[test]
fn a_saved_table_is_printed() {
    let layer = table();
    let bytes = saved::to_bytes(&layer.state(), layer.records());
    let file = env::temp_dir().join(format!("sirqobal-{}.table", std::process::id()));
    fs::write(&file, &bytes).unwrap();
    let output = picture(&[file.to_str().unwrap()], &[]);
    fs::remove_file(&file).unwrap();
    let expected = format!(
        "arena 0: base 0x0000000040000000, 66 chunks, 3 free, owned, shared\n\
         \x20    0 ~~{}\n    64 #-\n\
         \x20 A..Z held, a..z held and not committed, # + the same by others, \
         ~ to be purged, - free and committed, . free\n",
        "#".repeat(62)
    );
    assert!(output.status.success());
    assert_eq!(String::from_utf8(output.stdout).unwrap(), expected);
    assert_eq!(picture(&["-"], &bytes).stdout, expected.as_bytes());
}

#[test]
fn the_empty_table_has_no_arena() {
    let output = picture(&["-"], &vec![0; saved::BYTES]);
    assert_eq!(output.stdout, b"arenas: none\n");
}

#[test]
fn a_broken_table_is_drawn_as_far_as_it_goes() {
    let output = picture(&["-"], &vec![0xff; saved::BYTES]);
    assert!(output.status.success());
    let text = String::from_utf8(output.stdout).unwrap();
    assert_eq!(text.lines().count(), 32 * 17 + 1);
    assert!(text.lines().nth(1).unwrap().ends_with(&"#".repeat(64)));
}

#[test]
fn what_is_no_table_is_said() {
    for (arguments, input, said) in [
        (
            &["-"][..],
            &[1, 2, 3][..],
            "a saved table has 17512 bytes, not 3",
        ),
        (&["/nowhere/table"], &[], "No such file"),
        (&[], &[], "usage: picture FILE"),
    ] {
        let output = picture(arguments, input);
        assert!(!output.status.success() && output.stdout.is_empty());
        let error = String::from_utf8(output.stderr).unwrap();
        assert!(error.contains(said), "{error}");
    }
}

#[cfg(all(feature = "linux", target_os = "linux"))]
#[test]
fn the_demonstrations_save_their_last_table() {
    for program in [env!("CARGO_BIN_EXE_demo"), env!("CARGO_BIN_EXE_joined")] {
        saves_its_last_table(program);
    }
}

#[cfg(all(feature = "linux", target_os = "linux"))]
fn saves_its_last_table(program: &str) {
    let file = env::temp_dir().join(format!("sirqobal-demo-{}.table", std::process::id()));
    let name = file.to_str().unwrap();
    let ran = Command::new(program)
        .args(["--save", name])
        .output()
        .unwrap();
    assert!(ran.status.success(), "{program}");
    let output = picture(&[name], &[]);
    fs::remove_file(&file).unwrap();
    // Its last picture, but for the letters.
    let shown = String::from_utf8(ran.stdout).unwrap();
    let shown: Vec<String> = shown
        .lines()
        .filter(|line| line.starts_with("arena ") || line.starts_with("     0 "))
        .map(|line| match line.starts_with("arena ") {
            true => line.to_owned(),
            false => line.replace(['G', 'R'], "#"),
        })
        .collect();
    let text = String::from_utf8(output.stdout).unwrap();
    let printed: Vec<&str> = text.lines().collect();
    let (legend, arenas) = printed.split_last().unwrap();
    assert!(legend.starts_with("  A..Z held"));
    assert!(
        !arenas.is_empty()
            && shown
                .iter()
                .map(String::as_str)
                .collect::<Vec<_>>()
                .ends_with(arenas)
    );
}
