//! The header in C and C++, and the C example built over it and run.

use std::{
    env, fs,
    io::Write,
    path::{Path, PathBuf},
    process::{Command, Stdio},
};
use wesknuft_lower::{ROOM_SIZE, STACK};

const WARNINGS: [&str; 4] = ["-Wall", "-Wextra", "-pedantic", "-Werror"];

/// A compiler over the header's folder, if it is here.
fn compiler(name: &str, standard: &str) -> Option<Command> {
    if Command::new(name).arg("--version").output().is_err() {
        eprintln!("no {name}: not tried");
        return None;
    }
    let mut command = Command::new(name);
    command.arg(format!("-std={standard}"));
    command.args(WARNINGS).arg("-I");
    command.arg(Path::new(env!("CARGO_MANIFEST_DIR")).join("include"));
    Some(command)
}

fn made(name: &str) -> PathBuf {
    Path::new(env!("CARGO_TARGET_TMPDIR")).join(name)
}

#[test]
fn the_header_is_clean_and_has_the_crates_sizes() {
    let text = format!(
        "#include \"wesknuft_lower.h\"\n\
         extern char room[WESKNUFT_ROOM_SIZE == {ROOM_SIZE} ? 1 : -1];\n\
         extern char same[sizeof(struct wesknuft_room) == {ROOM_SIZE} ? 1 : -1];\n\
         extern char stack[WESKNUFT_THREAD_STACK == {STACK} ? 1 : -1];\n"
    );
    for (name, file, standards) in [
        ("cc", "header.c", ["c99", "c11", "c17"]),
        ("c++", "header.cpp", ["c++11", "c++17", "c++20"]),
    ] {
        let file = made(file);
        fs::write(&file, &text).unwrap();
        for standard in standards {
            if let Some(mut compiler) = compiler(name, standard) {
                let checked = compiler.arg("-fsyntax-only").arg(&file).status().unwrap();
                assert!(checked.success(), "{name} -std={standard}");
            }
        }
    }
}

fn run(program: &Path, ticket: &[u8]) -> String {
    let mut child = Command::new(program)
        .stdin(Stdio::piped())
        .stdout(Stdio::piped())
        .spawn()
        .unwrap();
    // The program need not read an overlong ticket to its end.
    let _ = child.stdin.take().unwrap().write_all(ticket);
    String::from_utf8(child.wait_with_output().unwrap().stdout).unwrap()
}

#[test]
fn the_example() {
    let example = Path::new(env!("CARGO_MANIFEST_DIR")).join("examples/lower.c");
    for (name, standard, language) in [("cc", "c11", "c"), ("c++", "c++17", "c++")] {
        let Some(mut compiler) = compiler(name, standard) else {
            continue;
        };
        let program = made(&format!("lower-{standard}"));
        let built = compiler
            .args(["-O2", "-x", language])
            .arg(&example)
            .args([
                "-x",
                "none",
                "-L",
                env!("LIBRARY_FOLDER"),
                "-lwesknuft",
                "-o",
            ])
            .arg(&program)
            .status()
            .unwrap();
        assert!(built.success(), "{name} -std={standard}");
        assert_eq!(
            run(&program, b"f,0,0\nt,bool\nt,pointer\nn,1,null\n"),
            "value,1,bytes,2,#0,#0\ndone,0,0,0\n"
        );
        assert_eq!(run(&program, b"f,0,0\nt,bool\n!\n"), "refused,2,3\n");
        assert_eq!(run(&program, &[b'\n'; 70_000]), "refused,1,0\n");
    }
}
