//! `./run` in a tree of its own, where stand-ins for `rt` and `cargo` build nothing but
//! write down that they were asked.

use crate::common::{file, folder, root, Ran, PROGRAM};
use std::fs;
use std::os::unix::fs::{symlink, PermissionsExt};
use std::path::{Path, PathBuf};
use std::process::Command;
use std::time::Duration;

/// What ./run takes from tools/setup.sh: nothing is installed here.
const SETUP: &str = "need_rt() { :; }\nneed_program() { :; }\nneed_xmlparser_crate() { :; }\n\
                     cargo_offline() { cargo \"$@\"; }\n";

struct Tree {
    root: PathBuf,
}

impl Tree {
    fn new(name: &str) -> Tree {
        let root_of_tree = folder(name);
        let tree = Tree { root: root_of_tree };
        for folder in [
            "bin",
            "crates/xml",
            "crates/falzheod_c",
            "rust/src",
            "samples",
            "tools",
            "elsewhere",
        ] {
            fs::create_dir_all(tree.root.join(folder)).unwrap();
        }
        for name in ["cores.xml", "cores-cut.xml", "cores.sheet"] {
            let from = root().join("samples").join(name);
            fs::copy(from, tree.root.join("samples").join(name)).unwrap();
        }
        for name in [
            "crates/xml/lib.rt",
            "rust/src/lib.rs",
            "rust/build.rs",
            "rust/Cargo.toml",
        ] {
            file(&tree.root, name, "");
        }
        file(&tree.root, "tools/setup.sh", SETUP);
        for name in ["run", "tools/archive"] {
            fs::copy(root().join(name), tree.root.join(name)).unwrap();
        }
        tree.script(
            "rt",
            "mkdir -p out && : >out/libfalzheod_c.a",
        );
        let built = tree.root.join("rust/target/release");
        let built = built.display();
        tree.script(
            "cargo",
            &format!("mkdir -p {built} && cp {PROGRAM} {built}/upload"),
        );
        tree
    }

    /// A stand-in that writes down its first words.
    fn script(&self, name: &str, does: &str) {
        let log = self.root.join("log");
        let text = format!("#!/bin/sh\necho {name} $1 >>{}\n{does}\n", log.display());
        let path = file(&self.root.join("bin"), name, text);
        fs::set_permissions(path, fs::Permissions::from_mode(0o755)).unwrap();
    }

    fn run(&self, program: &Path, words: &[&str]) -> Ran {
        let path = std::env::var("PATH").unwrap();
        let path = format!("{}:{path}", self.root.join("bin").display());
        let mut command = Command::new("bash");
        command.arg(program).args(words).env("PATH", path);
        command.env_remove("FALZHEOD_LIB_DIR");
        command.current_dir(self.root.join("elsewhere"));
        command.output().unwrap().into()
    }

    /// What was built since it was asked last.
    fn built(&self) -> Vec<String> {
        let log = self.root.join("log");
        let text = fs::read_to_string(&log).unwrap_or_default();
        let _ = fs::remove_file(log);
        text.lines().map(String::from).collect()
    }

    /// Changes a file, a little later than what was built.
    fn change(&self, name: &str) {
        std::thread::sleep(Duration::from_millis(50));
        file(&self.root, name, "changed");
    }
}

#[test]
fn builds_once_and_again_where_something_changed() {
    let tree = Tree::new("run-builds");
    let run = tree.root.join("run");
    let ran = tree.run(&run, &["--text", "a"]);
    assert_eq!(
        (ran.status, ran.out.as_str()),
        (0, "references: valid\nunescaped: a\n")
    );
    assert!(ran
        .err
        .contains("proving and building the library, some 7 minutes"));
    assert!(ran.err.contains("building the command, some ten seconds"));
    assert_eq!(tree.built(), ["rt lib", "cargo build"]);

    let ran = tree.run(&run, &["../samples/cores-cut.xml"]);
    assert_eq!((ran.status, ran.err.as_str()), (1, ""));
    assert_eq!(tree.built(), [""; 0]);

    for name in ["rust/src/lib.rs", "rust/Cargo.toml", "rust/build.rs"] {
        tree.change(name);
        assert_eq!(tree.run(&run, &["--help"]).status, 0);
        assert_eq!(tree.built(), ["cargo build"], "{name}");
    }
    tree.change("crates/xml/lib.rt");
    assert_eq!(tree.run(&run, &["--help"]).status, 0);
    assert_eq!(tree.built(), ["rt lib", "cargo build"]);
    assert_eq!(tree.run(&run, &["--help"]).err, "");
    assert_eq!(tree.built(), [""; 0]);
}

#[test]
fn through_a_symbolic_link_from_anywhere() {
    let tree = Tree::new("run-link");
    let link = tree.root.join("elsewhere/link");
    symlink("../run", &link).unwrap();
    file(&tree.root.join("elsewhere"), "mine.xml", "<a/>");
    let ran = tree.run(&link, &["mine.xml"]);
    assert_eq!(
        (ran.status, ran.out.as_str()),
        (0, "mine.xml: passes: 2 tokens, 4 bytes\n")
    );
}

#[test]
fn alone_it_does_the_main_job() {
    let tree = Tree::new("run-alone");
    let run = tree.root.join("run");
    let ran = tree.run(&run, &[]);
    assert_eq!(ran.status, 0, "{ran:?}");
    let deep = root().join("rust/tests/command/cores-deep.txt");
    assert!(
        ran.out.contains(&fs::read_to_string(deep).unwrap()),
        "{}",
        ran.out
    );
    assert!(
        ran.out.contains("samples/cores-cut.xml:30:34: "),
        "{}",
        ran.out
    );
    assert!(ran.out.ends_with("nothing is handed on\n"), "{}", ran.out);
    // what does not come out as expected is no success
    file(&tree.root, "samples/cores.xml", "<upload>");
    let ran = tree.run(&run, &[]);
    assert_eq!(ran.status, 1);
    assert!(
        ran.err.contains("the status is 1, and 0 was expected"),
        "{}",
        ran.err
    );
}

#[test]
fn a_closed_output_is_trouble() {
    let tree = Tree::new("run-closed");
    let script = format!("bash {}/run --help >&-\n", tree.root.display());
    let script = file(&tree.root, "closed", script);
    let ran = tree.run(&script, &[]);
    assert_eq!(
        (ran.status, ran.err.as_str()),
        (2, "run: standard output is closed\n")
    );
}

#[test]
fn what_cannot_be_written_is_trouble() {
    let tree = Tree::new("run-full");
    assert_eq!(tree.run(&tree.root.join("run"), &["--help"]).status, 0);
    for script in ["./run >/dev/full\n", "./run --help >/dev/full\n"] {
        let script = format!("cd {} && bash {script}", tree.root.display());
        let script = file(&tree.root, "full", script);
        let ran = tree.run(&script, &[]);
        assert_eq!((ran.status, ran.out.as_str()), (2, ""));
        assert!(ran.err.contains("standard output"), "{}", ran.err);
    }
}

/// The program has the archive in it that was named, however old that is.
#[test]
fn another_archive_is_another_program() {
    let tree = Tree::new("run-archive");
    let run = tree.root.join("run");
    let other = tree.root.join("elsewhere");
    file(&other, "libfalzheod.a", "");
    assert_eq!(tree.run(&run, &["--help"]).status, 0);
    tree.built();
    let script = format!(
        "FALZHEOD_LIB_DIR={} bash {} --help\n",
        other.display(),
        run.display()
    );
    let script = file(&tree.root, "other", script);
    assert_eq!(tree.run(&script, &[]).status, 0);
    assert_eq!(tree.built(), ["cargo build"]);
    assert_eq!(tree.run(&script, &[]).status, 0);
    assert_eq!(tree.built(), [""; 0]);
    assert_eq!(tree.run(&run, &["--help"]).status, 0);
    assert_eq!(tree.built(), ["cargo build"]);
}

#[test]
fn what_cannot_be_built_is_trouble() {
    let tree = Tree::new("run-trouble");
    tree.script("rt", "echo a proof failed && exit 1");
    let ran = tree.run(&tree.root.join("run"), &["mine.xml"]);
    assert_eq!((ran.status, ran.out.as_str()), (2, ""));
    assert!(ran.err.contains("a proof failed"), "{}", ran.err);
}
