//! `scripts/report` and `scripts/ask-program`, over a kit and a Cargo that only pretend: what they start, what they keep, and what they say.

use std::path::{Path, PathBuf};
use std::process::{Command, Output};
use std::{env, fs};

/// A folder that has of the repository what the scripts read, a kit, and programs that pretend.
struct Room {
    at: PathBuf,
}

impl Drop for Room {
    fn drop(&mut self) {
        // What stays behind in the folder for temporary files does no harm.
        let _ = fs::remove_dir_all(&self.at);
    }
}

/// A kit's loader, which runs what it is given.
const LOADER: &str = "#!/bin/sh\nshift 3\nexec \"$@\"\n";

/// An `rt` that counts its tries, and makes a program that writes what `crates/hir_ask/stdout` has.
const RT: &str = r#"#!/bin/sh
case $1 in
  doc) echo "$ROOM/kit/START-HERE.md" ;;
  version) echo pretended ;;
  try)
    echo try >>"$ROOM/tries"
    [ ! -e "$ROOM/broken" ] || { echo "rt: broken" >&2; exit 2; }
    kept=${CFLAGS#*\"}
    printf '#!/bin/sh\necho answers\n' >"${kept%%\"*}"
    chmod +x "${kept%%\"*}"
    echo answers ;;
esac
"#;

/// A `cargo` that makes a report which says what it asks.
const CARGO: &str = r#"#!/bin/sh
[ "$1" = build ] || exit 0
mkdir -p target/release
printf '#!/bin/sh\necho "program ${HIR_ASK_PROGRAM:-none} library ${HIR_C_LIBRARY:-none} words $*"\n' >target/release/hir-report
chmod +x target/release/hir-report
"#;

impl Room {
    fn new(test: &str) -> Room {
        let at = env::temp_dir().join(format!("hir-scripts-{test}-{}", std::process::id()));
        let room = Room { at };
        let repository = Path::new(env!("CARGO_MANIFEST_DIR")).join("../..");
        for name in ["report", "ask-program"] {
            let text = fs::read_to_string(repository.join("scripts").join(name)).expect("a script");
            room.program(&format!("repository/scripts/{name}"), &text);
        }
        room.write("repository/crates.txt", "hir_ask:\n");
        room.write("repository/HANDLES", "Handles allowed: none.\n");
        room.write("repository/crates/hir_ask/src/main.rt", "fn main() {}\n");
        room.write("repository/crates/hir_ask/stdin", "questions\n");
        room.write("repository/crates/hir_ask/stdout", "answers\n");
        room.write("repository/rust/report/Cargo.toml", "");
        room.write("file.rs", "fn f() {}\n");
        room.program("kit/toolchain/lib/ld-linux-x86-64.so.2", LOADER);
        room.program("bin/rt", RT);
        room.program("bin/cargo", CARGO);
        room
    }

    fn write(&self, name: &str, text: &str) {
        let path = self.at.join(name);
        fs::create_dir_all(path.parent().expect("a folder")).expect("a folder");
        fs::write(path, text).expect("a file");
    }

    fn program(&self, name: &str, text: &str) {
        use std::os::unix::fs::PermissionsExt;
        self.write(name, text);
        let all = fs::Permissions::from_mode(0o755);
        fs::set_permissions(self.at.join(name), all).expect("a program");
    }

    /// A run of a script with the programs that pretend first on the path, and nothing of this run's variables.
    fn run(&self, script: &str, words: &[&str], variables: &[(&str, &str)]) -> Output {
        let bin = self.at.join("bin");
        let path = format!("{}:/usr/bin:/bin", bin.display());
        let mut command = Command::new(self.at.join("repository/scripts").join(script));
        command.args(words).current_dir(&self.at).env_clear();
        command
            .env("PATH", path)
            .env("ROOM", &self.at)
            .envs(variables.iter().copied());
        command.output().expect("the script runs")
    }

    fn tries(&self) -> usize {
        let tries = fs::read_to_string(self.at.join("tries"));
        tries.map_or(0, |tries| tries.lines().count())
    }
}

fn said(output: &Output) -> (String, String) {
    let text = |bytes: &[u8]| String::from_utf8_lossy(bytes).into_owned();
    (text(&output.stdout), text(&output.stderr))
}

#[test]
fn the_program_is_made_once_for_the_same_sources() {
    let room = Room::new("made");
    let first = said(&room.run("ask-program", &[], &[]));
    assert_eq!(room.tries(), 1, "{}", first.1);
    let program = PathBuf::from(first.0.trim_end());
    let answers = Command::new(&program)
        .output()
        .expect("the program that was kept");
    assert_eq!(answers.stdout, b"answers\n");
    assert_eq!(said(&room.run("ask-program", &[], &[])), first);
    assert_eq!(room.tries(), 1);
    room.write("repository/crates/hir_ask/src/main.rt", "fn main() { }\n");
    let second = said(&room.run("ask-program", &[], &[]));
    assert_eq!(room.tries(), 2);
    assert_ne!(second.0, first.0);
    // That of the older sources is gone.
    assert!(!program.exists());
    room.write("repository/crates.txt", "hir_ask: hir_text\n");
    room.write("broken", "");
    let output = room.run("ask-program", &[], &[]);
    assert_eq!(output.status.code(), Some(1));
    assert_eq!(said(&output), (String::new(), String::from("rt: broken\n")));
}

#[test]
fn a_program_that_doesn_t_say_what_is_wanted_isn_t_kept() {
    let room = Room::new("wrong");
    room.write("repository/crates/hir_ask/stdout", "other answers\n");
    let output = room.run("ask-program", &[], &[]);
    assert!(!output.status.success());
    assert_eq!(output.stdout, b"");
    assert!(!room.run("ask-program", &[], &[]).status.success());
    assert_eq!(room.tries(), 2);
}

#[test]
fn without_the_library_the_first_line_says_that_nothing_is_proved() {
    let room = Room::new("unproved");
    let output = room.run("report", &["file.rs", "--counts"], &[]);
    let (out, errors) = said(&output);
    assert!(output.status.success(), "{errors}");
    assert!(
        errors.starts_with("scripts/report: without proofs: "),
        "{errors}"
    );
    assert_eq!(errors.lines().count(), 1, "{errors}");
    assert!(
        out.contains("/rust/target/hir_ask/")
            && out.ends_with(" library none words file.rs --counts\n"),
        "{out}"
    );
    assert_eq!(
        said(&room.run("report", &["file.rs", "--counts"], &[])),
        (out, errors)
    );
    assert_eq!(room.tries(), 1);
}

#[test]
fn the_library_is_asked_where_there_is_one() {
    let room = Room::new("library");
    let library = room.at.join("repository/crates/hir_c/out/libhir_c.a");
    room.write("repository/crates/hir_c/out/libhir_c.a", "");
    let output = room.run("report", &["file.rs"], &[]);
    let (out, errors) = said(&output);
    assert_eq!((output.status.code(), errors.as_str()), (Some(0), ""));
    let wanted = format!(
        "program none library {} words file.rs\n",
        library.canonicalize().expect("a path").display()
    );
    assert_eq!(out, wanted);
    room.write("other.a", "");
    let (out, _) = said(&room.run("report", &["file.rs"], &[("HIR_C_LIBRARY", "other.a")]));
    assert!(out.contains("/other.a words"), "{out}");
    let (out, _) = said(&room.run("report", &["file.rs"], &[("HIR_ASK_PROGRAM", "asks")]));
    assert!(out.starts_with("program asks "), "{out}");
    assert_eq!(
        room.run("report", &["file.rs"], &[("HIR_C_LIBRARY", "absent.a")])
            .status
            .code(),
        Some(2)
    );
    assert_eq!(room.tries(), 0);
}

#[test]
fn what_is_missing_is_said_in_one_sentence_before_anything_starts() {
    let room = Room::new("missing");
    for name in ["rt", "cargo"] {
        fs::remove_file(room.at.join("bin").join(name)).expect("it is there");
    }
    let output = room.run("report", &["file.rs"], &[]);
    let (out, errors) = said(&output);
    assert_eq!((output.status.code(), out.as_str()), (Some(2), ""));
    assert_eq!(errors.lines().count(), 1, "{errors}");
    for word in ["this machine lacks ", "cargo", "rustup.rs", "kit's rt"] {
        assert!(errors.contains(word), "{word}: {errors}");
    }
    for words in [&[][..], &["absent.rs"]] {
        assert_eq!(
            room.run("report", words, &[]).status.code(),
            Some(2),
            "{words:?}"
        );
    }
}
