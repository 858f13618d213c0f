//! Each program writes what its crate's `stdout` contains, for the input, the arguments and the files of the crate.

use std::fs::{self, File};
use std::path::Path;
use std::process::{Command, Stdio};

/// Runs a program in a folder that contains the crate's data, and compares its output and its status.
fn writes_its_output(program: &str, binary: &str) {
    let crate_folder = Path::new(env!("CARGO_MANIFEST_DIR")).join("../../crates").join(program);
    let folder = Path::new(env!("CARGO_TARGET_TMPDIR")).join(program);
    fs::create_dir_all(&folder).unwrap();
    if let Ok(data) = fs::read_dir(crate_folder.join("data")) {
        for file in data.map(Result::unwrap) {
            fs::copy(file.path(), folder.join(file.file_name())).unwrap();
        }
    }
    let arguments = fs::read_to_string(crate_folder.join("args")).unwrap_or_default();
    let input = File::open(crate_folder.join("stdin")).map_or_else(|_| Stdio::null(), Stdio::from);
    let run = Command::new(binary).args(arguments.lines()).current_dir(&folder).stdin(input).output().unwrap();
    let expected = fs::read(crate_folder.join("stdout")).unwrap();
    assert!(run.stdout == expected, "{}", String::from_utf8_lossy(&run.stdout));
    assert!(run.status.success(), "{}", run.status);
    assert!(run.stderr.is_empty(), "{}", String::from_utf8_lossy(&run.stderr));
}

#[test]
fn replay() {
    writes_its_output("replay", env!("CARGO_BIN_EXE_replay"));
}

#[test]
fn trace() {
    writes_its_output("trace", env!("CARGO_BIN_EXE_trace"));
}

#[test]
fn example_responses() {
    writes_its_output("example_responses", env!("CARGO_BIN_EXE_example_responses"));
}

#[test]
fn example_pages() {
    writes_its_output("example_pages", env!("CARGO_BIN_EXE_example_pages"));
}

/// After each of 100,000 crashes, each committed record is there.
#[test]
fn crashes_of_example_pages() {
    let folder = Path::new(env!("CARGO_TARGET_TMPDIR")).join("crashes");
    fs::create_dir_all(&folder).unwrap();
    fs::write(folder.join("stdin"), "crashes 100000\n").unwrap();
    let mut run = Command::new(env!("CARGO_BIN_EXE_example_pages"));
    let run = run.current_dir(&folder).stdin(File::open(folder.join("stdin")).unwrap()).output().unwrap();
    let output = String::from_utf8(run.stdout).unwrap();
    assert!(run.status.success() && output.starts_with("100000 crashes, 0 lost; "), "{output}");
}

#[test]
fn rows() {
    writes_its_output("rows", env!("CARGO_BIN_EXE_rows"));
}

#[test]
fn arguments() {
    for binary in [
        env!("CARGO_BIN_EXE_replay"),
        env!("CARGO_BIN_EXE_trace"),
        env!("CARGO_BIN_EXE_example_pages"),
        env!("CARGO_BIN_EXE_example_responses"),
    ] {
        let help = Command::new(binary).arg("--help").stdin(Stdio::null()).output().unwrap();
        assert!(help.status.success() && String::from_utf8_lossy(&help.stdout).contains(" < "));
        let unknown = Command::new(binary).arg("-x").stdin(Stdio::null()).output().unwrap();
        assert_eq!((unknown.status.code(), unknown.stdout.as_slice()), (Some(4), &b""[..]));
        assert!(String::from_utf8_lossy(&unknown.stderr).contains("unknown argument -x"));
    }
    for arguments in [
        &["--best", "-x"][..],
        &["--column", "0"],
        &["--column", "-1"],
        &["--column", "18446744073709551616"],
        &["--separator", ""],
        &["--separator", ",;"],
        &["--best", "--column"],
        &["--csv", "--separator"],
        &["--warm-up", "-1"],
        &["--warm-up", "18446744073709551616"],
        &["--csv", "--warm-up"],
        &["--warm-up", "0", "--best"],
        &["--sample", "21"],
        &["--sample", "-1"],
        &["--sample", "x"],
        &["--best", "--sample"],
        &["--size-column", "0"],
        &["--csv", "--size-column"],
        &["--size-column", "2", "--best"],
        &["--deletes", "--best"],
        &["--size-column", "2", "--deletes"],
        &["--warm-up", "0", "--best", "--deletes"],
    ] {
        let run = Command::new(env!("CARGO_BIN_EXE_trace")).args(arguments).stdin(Stdio::null()).output().unwrap();
        assert_eq!((run.status.code(), run.stdout.as_slice()), (Some(4), &b""[..]), "{arguments:?}");
        assert!(String::from_utf8_lossy(&run.stderr).ends_with("; try --help\n"), "{arguments:?}");
    }
}

/// How often MIN and MIN with bypass miss, by the definition: they evict the key whose next reference comes last.
fn best_misses(keys: &[usize], places: usize, bypass: bool) -> usize {
    let mut nexts = vec![keys.len(); keys.len()];
    let mut seen = std::collections::HashMap::new();
    for now in (0..keys.len()).rev() {
        nexts[now] = seen.insert(keys[now], now).unwrap_or(keys.len());
    }
    let (mut cache, mut misses) = (std::collections::HashMap::new(), 0);
    for (now, key) in keys.iter().enumerate() {
        if cache.remove(key).is_none() {
            misses += 1;
            if cache.len() == places {
                let last = *cache.iter().max_by_key(|it| *it.1).unwrap().0;
                if bypass && nexts[now] >= cache[&last] {
                    continue;
                }
                cache.remove(&last);
            }
        }
        cache.insert(*key, nexts[now]);
    }
    misses
}

/// A trace of 20,000 references with twenty sizes.
#[test]
fn best_of_a_long_trace() {
    let mut random = 1u64;
    let mut number = |below: u64| {
        random = random.wrapping_mul(6_364_136_223_846_793_005).wrapping_add(1);
        (random >> 33) % below
    };
    let keys: Vec<usize> = (0..20_000).map(|_| (number(50) * number(40)) as usize).collect();
    let sizes: Vec<usize> = (1..=20).map(|n| n * n).collect();
    let mut input = sizes.iter().map(usize::to_string).collect::<Vec<_>>().join(" ") + "\n";
    keys.iter().for_each(|key| input += &format!("{key}\n"));
    let path = Path::new(env!("CARGO_TARGET_TMPDIR")).join("long_trace");
    fs::write(&path, input).unwrap();
    let mut run = Command::new(env!("CARGO_BIN_EXE_trace"));
    let output = run.arg("--best").stdin(File::open(path).unwrap()).output().unwrap().stdout;
    let text = String::from_utf8(output).unwrap();
    for (places, line) in sizes.iter().zip(text.lines().skip(1)) {
        let (min, bypass) = (best_misses(&keys, *places, false), best_misses(&keys, *places, true));
        assert!(line.ends_with(&format!(" min {min} bypass {bypass}")), "{line}: {min} {bypass}");
    }
}

/// Each case of `crates/trace/cases`; `crates/trace/cases.py` computes the reports.
#[test]
fn cases_of_trace() {
    let folder = Path::new(env!("CARGO_MANIFEST_DIR")).join("../../crates/trace/cases");
    let mut cases = 0;
    for file in fs::read_dir(folder).unwrap().map(|file| file.unwrap().path()) {
        if file.extension().is_some() {
            continue;
        }
        let expected = fs::read(file.with_extension("stdout")).unwrap();
        let arguments = fs::read_to_string(file.with_extension("args")).unwrap_or_default();
        let mut run = Command::new(env!("CARGO_BIN_EXE_trace"));
        let run = run.args(arguments.lines()).stdin(File::open(&file).unwrap()).output().unwrap();
        assert!(run.stdout == expected, "{}: {}", file.display(), String::from_utf8_lossy(&run.stdout));
        let failed = if arguments.contains("--size-column") { 5 } else { 1 };
        let status = if expected.is_empty() { failed } else { 0 };
        assert_eq!(run.status.code(), Some(status), "{}", file.display());
        cases += 1;
    }
    assert!(cases > 10);
}

/// Runs `trace` on this input, with its output to this file, and returns its status and what it says of an error.
#[cfg(target_os = "linux")]
fn end_of_trace(input: &Path, output: &str) -> (Option<i32>, String) {
    let output = File::options().write(true).open(output).unwrap();
    let mut run = Command::new(env!("CARGO_BIN_EXE_trace"));
    let run = run.stdin(File::open(input).unwrap()).stdout(output).output().unwrap();
    (run.status.code(), String::from_utf8(run.stderr).unwrap())
}

/// `trace` says on standard error why it writes no output.
#[test]
fn reasons_of_trace() {
    let cases = Path::new(env!("CARGO_MANIFEST_DIR")).join("../../crates/trace/cases");
    let large = Path::new(env!("CARGO_TARGET_TMPDIR")).join("large");
    fs::write(&large, "1\na,18446744073709551615\nb,1\n").unwrap();
    for (arguments, input, status, reason) in [
        (&[][..], cases.join("no_sizes"), 1, "trace: the first line has no sizes; try --help\n"),
        (&["--column", "1", "--size-column", "2"], large, 5, "trace: the sizes of the keys are too large\n"),
        (&["--sample", "21"], cases.join("cycle"), 4, "trace: an option cannot have the value 21; try --help\n"),
    ] {
        let mut run = Command::new(env!("CARGO_BIN_EXE_trace"));
        let run = run.args(arguments).stdin(File::open(input).unwrap()).output().unwrap();
        assert_eq!((run.status.code(), run.stdout.as_slice()), (Some(status), &b""[..]), "{arguments:?}");
        assert_eq!(String::from_utf8_lossy(&run.stderr), reason, "{arguments:?}");
    }
}

/// The last form that an argument names counts.
#[test]
fn forms_of_trace() {
    let input = Path::new(env!("CARGO_MANIFEST_DIR")).join("../../crates/trace/cases/cycle");
    for (arguments, beginning) in [(["--svg", "--csv"], "size,hits"), (["--csv", "--svg"], "<svg")] {
        let mut run = Command::new(env!("CARGO_BIN_EXE_trace"));
        let run = run.args(arguments).stdin(File::open(&input).unwrap()).output().unwrap();
        assert!(run.stdout.starts_with(beginning.as_bytes()), "{arguments:?}");
    }
}

/// The statuses of `trace`, except the status for an unknown argument. A directory cannot be read, a full device cannot
/// be written, and 2,000,000 keys do not fit in 30 megabytes.
#[cfg(target_os = "linux")]
#[test]
fn statuses_of_trace() {
    let cases = Path::new(env!("CARGO_MANIFEST_DIR")).join("../../crates/trace/cases");
    assert_eq!(end_of_trace(&cases.join("cycle"), "/dev/null"), (Some(0), String::new()));
    assert_eq!(end_of_trace(&cases.join("no_sizes"), "/dev/null").0, Some(1));
    assert_eq!(end_of_trace(&cases, "/dev/null"), (Some(2), "trace: read failed\n".to_string()));
    assert_eq!(end_of_trace(&cases.join("cycle"), "/dev/full"), (Some(2), "trace: write failed\n".to_string()));
    let many = Path::new(env!("CARGO_TARGET_TMPDIR")).join("many_keys");
    fs::write(&many, (0..2_000_000).map(|key| format!("{key}\n")).collect::<String>()).unwrap();
    for form in ["--best", "--csv", "--svg"] {
        let mut limited = Command::new("sh");
        limited.args(["-c", "ulimit -v 30000; exec \"$0\" \"$1\"", env!("CARGO_BIN_EXE_trace"), form]);
        let run = limited.stdin(File::open(&many).unwrap()).output().unwrap();
        assert_eq!((run.status.code(), run.stdout.as_slice()), (Some(3), &b""[..]));
    }
}
