//! The command: what it hands on and when, and its exit status. Wants the
//! proved program, or another that STEWPIGEON_TRANSCRIPT names.

use std::env;
use std::fs::{self, File, OpenOptions};
use std::io::{Read, Write};
use std::os::unix::fs::OpenOptionsExt;
use std::path::{Path, PathBuf};
use std::process::{Command, Output, Stdio};
use std::thread;
use std::time::{Duration, Instant};

use independent::recorder::Recorder;
use independent::transcript::transcript;

const COMMAND: &str = env!("CARGO_BIN_EXE_stewpigeon-transcript");

/// `O_NONBLOCK`.
const NON_BLOCKING: i32 = 0o4000;

fn command() -> Command {
    let proved = Path::new(env!("CARGO_MANIFEST_DIR")).join("../../target/bin/transcript");
    let program = env::var_os("STEWPIGEON_TRANSCRIPT").map_or(proved, PathBuf::from);
    let hint =
        "build the proved program first, with `tools/build program` in the repository's root";
    assert!(program.is_file(), "no {}: {hint}", program.display());
    with(&program)
}

fn with(program: &Path) -> Command {
    let mut command = Command::new(COMMAND);
    command
        .env("STEWPIGEON_TRANSCRIPT", program)
        .stdin(Stdio::piped())
        .stdout(Stdio::piped())
        .stderr(Stdio::piped());
    command
}

fn run(mut command: Command, input: &[u8]) -> Output {
    let mut child = command.spawn().unwrap();
    let mut to = child.stdin.take().unwrap();
    let input = input.to_vec();
    // A wrong argument ends the command before it reads.
    let feeding = thread::spawn(move || drop(to.write_all(&input)));
    let output = child.wait_with_output().unwrap();
    feeding.join().unwrap();
    output
}

fn text(bytes: &[u8]) -> &str {
    std::str::from_utf8(bytes).unwrap()
}

/// A file of a test's own.
fn file(name: &str) -> PathBuf {
    let path = Path::new(env!("CARGO_TARGET_TMPDIR")).join(name);
    let _ = fs::remove_file(&path);
    path
}

/// Runs with a shell in place of the proved program, and its lines in place
/// of a journal.
fn run_lines(arguments: &[&str], lines: &str) -> Output {
    let mut command = with(Path::new("/bin/sh"));
    command.args(arguments);
    run(command, lines.as_bytes())
}

/// A packet of type T140 that holds this text.
fn packet(sequence: u16, text: &str) -> Vec<u8> {
    let mut packet = vec![0x80, 98];
    packet.extend(sequence.to_be_bytes());
    packet.extend([0, 0, 0, 0, 0x5b, 0x8e, 0x47, 0x31]);
    packet.extend(text.bytes());
    packet
}

fn recorded(texts: &[&str]) -> Recorder {
    let open = Recorder::open(98, 100);
    let add = |recorder: Recorder, (sequence, text)| recorder.packet(&packet(sequence, text));
    (1..).zip(texts.iter().copied()).fold(open, add)
}

#[test]
fn whole_and_broken() {
    let texts = [
        vec![],
        vec!["a", "é€😀", "\n"],
        vec!["journal broken"],
        vec!["\njournal broken\n"],
        vec!["\n", "packets 1 late 2 lost 3 refused 4\n"],
    ];
    let name = file("whole_and_broken.journal");
    for texts in texts {
        let recorded = recorded(&texts);
        for (journal, status) in [
            (recorded.clone().end(), 0),
            (recorded.bytes.clone(), 1),
            (recorded.bytes(&[0xff]).end(), 1),
        ] {
            let expected = transcript(&journal);
            fs::write(&name, &journal).unwrap();
            for named in [None, Some(name.as_path()), Some(Path::new("-"))] {
                let mut command = command();
                command.args(named);
                let output = run(command, &journal);
                assert_eq!(text(&output.stderr), "");
                assert_eq!(text(&output.stdout), text(&expected));
                assert_eq!(output.status.code(), Some(status), "{texts:?}");
            }
        }
    }
}

#[test]
fn long_text() {
    let typed = "x\u{feff}y".repeat(200);
    let texts = vec![typed.as_str(); 2000];
    let journal = recorded(&texts).end();
    let whole = run(command(), &journal);
    assert!(whole.stdout == transcript(&journal));
    let mut leaving_out = command();
    leaving_out.arg("--no-keepalives");
    let output = run(leaving_out, &journal);
    assert_eq!(output.status.code(), Some(0));
    assert!(text(&output.stdout) == text(&whole.stdout).replace('\u{feff}', ""));
    let counts = "\npackets 2000 late 0 lost 0 refused 0\n";
    assert!(text(&output.stdout).ends_with(counts));
}

/// However the program's output is cut.
#[test]
fn keepalives_across_cuts() {
    let lines = r"printf 'a\357'; sleep 0.05; printf '\273'; sleep 0.05; printf '\277b\357\273'
        sleep 0.05; printf '\300\n'; sleep 0.05; printf 'packets 1 late 0 lost 0 refused 0\n'";
    let output = run_lines(&["--no-keepalives"], lines);
    let expected = b"ab\xef\xbb\xc0\npackets 1 late 0 lost 0 refused 0\n";
    assert_eq!(output.stdout, expected);
    assert_eq!(output.status.code(), Some(0));
}

/// The text is there before more of the journal is; and the end, where the
/// pipe stays open behind it.
#[test]
fn pipe_that_stays_open() {
    for option in [None, Some("--no-keepalives")] {
        for (last, status) in [(Recorder::default().end(), 0), (vec![0xff], 1)] {
            let mut child = command().args(option).spawn().unwrap();
            let mut input = child.stdin.take().unwrap();
            let mut printed = child.stdout.take().unwrap();
            let mut letter = [0];
            let mut so_far = Recorder::open(98, 100);
            input.write_all(&so_far.bytes).unwrap();
            for (sequence, typed) in (1..).zip(*b"typed") {
                let packet = packet(sequence, text(&[typed]));
                input
                    .write_all(&Recorder::default().packet(&packet).bytes)
                    .unwrap();
                printed.read_exact(&mut letter).unwrap();
                assert_eq!(letter, [typed]);
                so_far = so_far.packet(&packet);
            }
            input.write_all(&last).unwrap();
            let mut rest = String::new();
            printed.read_to_string(&mut rest).unwrap();
            let expected = transcript(&so_far.bytes(&last).bytes);
            assert_eq!(format!("typed{rest}"), text(&expected));
            assert_eq!(child.wait().unwrap().code(), Some(status));
            drop(input);
        }
    }
}

#[test]
fn unreadable() {
    let folder = env!("CARGO_TARGET_TMPDIR");
    for (arguments, expected) in [
        (vec!["no such journal"], "no such journal: "),
        (vec![folder], "a folder, no journal"),
        (vec!["--what"], "unknown option --what; --help lists them"),
        (vec!["a", "b"], "a second journal, b"),
        (vec!["--", "--help"], "--help: "),
    ] {
        let mut command = command();
        command.args(&arguments);
        let output = run(command, b"");
        assert_eq!(output.status.code(), Some(2), "{arguments:?}");
        assert!(text(&output.stderr).contains(expected), "{arguments:?}");
        assert_eq!(output.stdout, b"");
    }
    for (redirection, expected) in [("<&-", "standard input is closed"), ("< /", "a folder")] {
        let output = shell(redirection, &[]);
        assert_eq!(output.status.code(), Some(2), "{redirection}");
        assert!(text(&output.stderr).contains(expected));
    }
    // A read that fails is told by the program.
    let lines =
        "echo 'transcript: cannot read standard input; ..' >&2; printf 'a\\njournal broken\\n'";
    let output = run_lines(&[], lines);
    assert_eq!(output.status.code(), Some(2));
    let missing = run(with(Path::new("/no/such/program")), b"");
    assert_eq!(missing.status.code(), Some(2));
    assert!(text(&missing.stderr).contains("cannot run /no/such/program"));
}

/// Runs the command by a shell.
fn shell(redirection: &str, arguments: &[&Path]) -> Output {
    let line = format!("exec \"$0\" \"$@\" {redirection}");
    let command = command();
    let mut shell = Command::new("sh");
    shell.args(["-c", &line, COMMAND]).args(arguments);
    for (name, value) in command.get_envs() {
        shell.env(name, value.unwrap());
    }
    shell.output().unwrap()
}

#[test]
fn failed_output() {
    let name = file("failed_output.journal");
    fs::write(&name, recorded(&["a"]).end()).unwrap();
    for (redirection, expected) in [
        (">&-", "standard output: it is closed"),
        ("> /dev/full", "standard output: No space left"),
    ] {
        let output = shell(redirection, &[&name]);
        assert_eq!(output.status.code(), Some(3), "{redirection}");
        assert!(text(&output.stderr).contains(expected));
    }
    assert_eq!(shell("> /dev/null", &[&name]).status.code(), Some(0));
    // Nobody reads what is printed. What another test starts holds this pipe
    // too until it runs, so it gets time to.
    let mut child = command().spawn().unwrap();
    drop(child.stdout.take());
    thread::sleep(Duration::from_millis(500));
    let mut input = child.stdin.take().unwrap();
    input.write_all(&recorded(&["a"]).bytes).unwrap();
    let status = (0..6000).find_map(|_| {
        thread::sleep(Duration::from_millis(10));
        child.try_wait().unwrap()
    });
    assert_eq!(status.and_then(|status| status.code()), Some(3));
    // The program is cut off.
    for lines in ["printf a; kill -KILL $$", "printf 'a\\njournal'", "true"] {
        let output = run_lines(&[], lines);
        assert_eq!(output.status.code(), Some(3), "{lines}");
        assert!(text(&output.stderr).contains("ended before its last line"));
    }
}

/// Ends that are not always ready are waited for.
#[test]
fn ends_that_do_not_block() {
    let fifo = |name: &str| {
        let path = file(name);
        let made = Command::new("mkfifo").arg(&path).status().unwrap();
        assert!(made.success());
        let both = OpenOptions::new().read(true).write(true).open(&path);
        let mut open = OpenOptions::new();
        open.custom_flags(NON_BLOCKING);
        (path, both.unwrap(), open)
    };
    let (input, mut writer, mut opening) = fifo("input.fifo");
    let input: File = opening.read(true).open(input).unwrap();
    let (output, reader, mut opening) = fifo("output.fifo");
    let output: File = opening.write(true).open(output).unwrap();
    let mut child = command().stdin(input).stdout(output).spawn().unwrap();
    let typed = "x".repeat(1000);
    let texts = vec![typed.as_str(); 300];
    let journal = recorded(&texts).end();
    let expected = transcript(&journal);
    let (first, last) = journal.split_at(journal.len() / 2);
    let (first, last) = (first.to_vec(), last.to_vec());
    let feeding = thread::spawn(move || {
        writer.write_all(&first).unwrap();
        thread::sleep(Duration::from_millis(50));
        writer.write_all(&last).unwrap();
        writer
    });
    // The output's pipe is full meanwhile.
    thread::sleep(Duration::from_millis(100));
    let mut printed = vec![0; expected.len()];
    (&reader).read_exact(&mut printed).unwrap();
    assert!(printed == expected);
    let start = Instant::now();
    assert_eq!(child.wait().unwrap().code(), Some(0));
    assert!(start.elapsed() < Duration::from_secs(5));
    drop(feeding.join().unwrap());
}

#[test]
fn help() {
    let mut command = command();
    command.arg("--help");
    let output = run(command, b"");
    assert_eq!(output.status.code(), Some(0));
    let said = text(&output.stdout);
    assert!(said.starts_with("Usage: stewpigeon-transcript"));
    for word in ["packets", "late", "lost", "refused", "U+FFFD", "U+FEFF"] {
        assert!(said.contains(word), "{word}");
    }
}
