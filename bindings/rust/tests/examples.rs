//! Tests of the programs in the folder `examples`, which `cargo test` builds.
use std::path::PathBuf;
use std::process::{Command, Output};
use std::{env, fs};

/// Runs an example in the crate's folder.
fn run(name: &str, words: &[&str]) -> Output {
    let tests = env::current_exe().expect("a test has a path");
    let program = tests.ancestors().nth(2).expect("the folder of the profile").join("examples").join(name);
    assert!(program.is_file(), "cargo test builds {}", program.display());
    Command::new(program).args(words).current_dir(top()).output().expect("an example runs")
}

/// Returns the crate's folder.
fn top() -> PathBuf {
    PathBuf::from(env!("CARGO_MANIFEST_DIR"))
}

/// `grep` prints what `grep -E` prints, and exits with the same status.
#[test]
fn grep() {
    let rows: [&[&str]; 8] = [
        &["-c", "-e", "lazy", "-e", "[0-9]{2,}", "README.md", "src/lib.rs"],
        &["-n", "-i", "-e", "^the|DFA[.,]$", "README.md"],
        &["-i", "x*regex", "README.md", "Cargo.toml", "build.rs", "src/iter.rs"],
        &["`[a-z_]+`", "src/raw.rs"],
        &["-n", "^$", "build.rs"],
        &["-c", "(a|e|i|o|u){3}", "README.md"],
        &["-e", "no such line in it", "build.rs"],
        &["lazy", "no such file", "README.md"],
    ];
    let mut grep = Command::new("grep");
    if grep.arg("--version").output().is_err() {
        return println!("skipped: there is no grep");
    }
    for words in rows {
        let found = run("grep", words);
        let mut grep = Command::new("grep");
        let wanted = grep.arg("-E").args(words).env("LC_ALL", "C").current_dir(top()).output().expect("grep");
        assert_eq!(
            String::from_utf8_lossy(&found.stdout),
            String::from_utf8_lossy(&wanted.stdout),
            "{words:?}"
        );
        assert_eq!(found.status.code(), wanted.status.code(), "{words:?}");
    }
}

/// `grep --which` counts the lines that match each pattern, as `grep -c -E` does for each.
#[test]
fn grep_which() {
    let patterns = ["lazy", "[A-Z]{3}", "^ *$", "no such line in it"];
    let mut words = vec!["--which", "README.md"];
    patterns.iter().for_each(|pattern| words.extend(["-e", pattern]));
    let found = String::from_utf8(run("grep", &words).stdout).expect("its output is text");
    let text = fs::read_to_string(top().join("README.md")).expect("the file is there");
    let is_blank = |line: &&str| line.chars().all(|it| it == ' ');
    let has_capitals =
        |line: &&str| line.as_bytes().windows(3).any(|it| it.iter().all(u8::is_ascii_uppercase));
    let counts = [
        text.lines().filter(|line| line.contains("lazy")).count(),
        text.lines().filter(has_capitals).count(),
        text.lines().filter(is_blank).count(),
        0,
    ];
    let wanted: Vec<_> =
        patterns.iter().zip(counts).map(|(pattern, count)| format!("{count} {pattern}")).collect();
    assert_eq!(found.lines().collect::<Vec<_>>(), wanted);
}

/// `lexer` prints tokens, or the place where no token begins.
#[test]
fn lexer() {
    let file = env::temp_dir().join(format!("lazydfa-{}-lexer", std::process::id()));
    let path = file.to_str().expect("the path is text");
    fs::write(&file, "let letter = 12.5; // half\nif x <= 3 { \"a\\\"b\" }\n").expect("the file is written");
    let found = run("lexer", &[path]);
    let wanted = [
        "keyword  let",
        "name     letter",
        "operator =",
        "number   12.5",
        "mark     ;",
        "keyword  if",
        "name     x",
        "operator <=",
        "number   3",
        "mark     {",
        "string   \"a\\\"b\"",
        "mark     }",
    ];
    assert_eq!(String::from_utf8_lossy(&found.stdout).lines().collect::<Vec<_>>(), wanted);
    fs::write(&file, "let a = 1;\nlet é = 2;\n").expect("the file is written");
    let found = run("lexer", &[path]);
    fs::remove_file(&file).expect("the file is removed");
    assert_eq!(String::from_utf8_lossy(&found.stderr), "line 2: no token\n  let é = 2;\n      ^\n");
    assert_eq!(found.status.code(), Some(1));
}

/// `words` prints the spans of words.
#[test]
fn words() {
    assert_eq!(String::from_utf8_lossy(&run("words", &["foo", "12", "bar"]).stdout), "0..3\n7..10\n");
}
