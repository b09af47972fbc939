//! Runs the shell scripts in `samples/` as a user types them, and looks at what
//! they write and with which status they end.

use linduvar_tests::paper::text;
use linduvar_tests::regular::CHILDREN;
use linduvar_tests::samples;
use std::fs::{self, File};
use std::os::unix::fs::{symlink, PermissionsExt};
use std::path::{Path, PathBuf};
use std::process::{self, Command, Output, Stdio};
use std::time::{Duration, Instant};
use std::{env, thread};

fn main() {
    let start = Instant::now();
    let folder = Folder::new();
    for program in ["gatewalk", "drawtrees", "buychip", "readtree"] {
        assert!(script("build", &[&program]).status.success(), "{program}");
    }
    bytes(&folder);
    offsets();
    run(&folder);
    refusals();
    wide_commands(&folder);
    file_names(&folder);
    whole_output(&folder);
    trees(&folder);
    compared(&folder);
    chips(&folder);
    built(&folder);
    println!("no difference, {:.1} s", start.elapsed().as_secs_f64());
}

/// `samples/bytes` gives the bytes of each sample, whatever ends its lines, and
/// of a long one within seconds. Of one with a fault it gives nothing, and
/// names the line or the byte order mark.
fn bytes(folder: &Folder) {
    let bytes_of = |text: &[u8]| script("bytes", &[&folder.file("sample.hex", text)]);
    for path in samples::all() {
        let sample = samples::read(&path);
        assert_eq!(script("bytes", &[&path]).stdout, sample.script);
    }
    for name in ["garden.hex", "hut.hex", "wide.hex"] {
        let path = samples::folder().join(name);
        let sample = samples::read(&path);
        let lines = fs::read_to_string(&path).expect("a sample");
        for end in ["\r\n", "\r"] {
            let written = bytes_of(lines.replace('\n', end).as_bytes());
            assert_eq!(written.stdout, sample.script, "{}", path.display());
        }
    }
    let start = Instant::now();
    let long = "0A FF\n".repeat(32_768);
    assert_eq!(bytes_of(long.as_bytes()).stdout, [10, 255].repeat(32_768));
    assert!(start.elapsed() < Duration::from_secs(5));

    for end in ["\n", "\r\n", "\r"] {
        let faulty = format!("01 00{end}# a comment{end}02 0G # no byte{end}");
        refused(
            &bytes_of(faulty.as_bytes()),
            1,
            ":3: 0G is no byte in hex\n",
        );
    }
    let marked = [&b"\xEF\xBB\xBF"[..], b"01 00\n"].concat();
    refused(&bytes_of(&marked), 1, "byte order mark (UTF-8)");
    refused(
        &bytes_of(b"\xFF\xFE0\x001\x00"),
        1,
        "byte order mark (UTF-16)",
    );
    println!("bytes: as read here, with each end of lines");
}

/// `samples/offsets` shows before each line that promises a refusal its
/// command's offset.
fn offsets() {
    let mut shown = 0;
    for path in samples::all() {
        let view = text(script("offsets", &[&path]).stdout);
        for line in view.lines() {
            if let Some((_, refusal)) = line.split_once("=> no ") {
                let offset = refusal.split(' ').nth(1).expect("an offset");
                let offsets = line.split("  ").next().unwrap_or("").split(' ');
                assert_eq!(offsets.last(), Some(offset), "{line}");
                shown += 1;
            }
        }
    }
    assert!(shown > 20, "only {shown}");
    println!("offsets: those of {shown} refusals");
}

/// What `samples/run` writes, and its status: 0 if nothing is refused.
fn run(folder: &Folder) {
    let garden = samples::folder().join("garden.hex");
    // The garden has refusals on purpose.
    let walked = script("run", &[&"gatewalk", &garden]);
    assert_eq!(walked.status.code(), Some(1));
    assert_eq!(text(walked.stdout), samples::read(&garden).promised);
    assert!(text(walked.stderr).contains("docs/REFUSALS.md"));

    let drawing = fs::read_to_string(&garden).expect("the garden");
    let opening = drawing.split("# A push").next().expect("its opening");
    let opening = folder.file("opening.hex", opening.as_bytes());
    for (program, sample) in [
        ("gatewalk", &opening),
        ("buychip", &garden),
        ("drawtrees", &garden),
    ] {
        let output = script("run", &[&program, sample]);
        assert_eq!(output.status.code(), Some(0), "{program}");
        assert!(
            !output.stdout.is_empty() && output.stderr.is_empty(),
            "{program}"
        );
    }
    refused(
        &script("run", &[&"none", &garden]),
        2,
        "buychip drawtrees gatewalk readtree\n",
    );
    refused(
        &script("run", &[&"gatewalk", &"none.hex"]),
        1,
        "none.hex: no file",
    );
    refused(&script("run", &[&"gatewalk"]), 2, "usage: ");
    println!("run: 0 where nothing is refused");
}

/// Each sample of a refusal ends with status 1, and what is said of it.
fn refusals() {
    let mut said = 0;
    for path in samples::all() {
        let name = path
            .file_stem()
            .and_then(|name| name.to_str())
            .expect("a name");
        if name.parse::<u8>().is_err() {
            continue;
        }
        let output = script("run", &[&"gatewalk", &path]);
        let sentence = match name {
            "01" => "no 1 9: the source ends before it is complete\n",
            "12" => "no 12 13: the branch of node 0 has 2 leaves, a chip branch where it may go at most 1\n",
            "20" => "no 20 2: at offset 2 stands 08, which is no command\n",
            "21" => "no 21 4: at offset 4 stands 03, the packet limit, which takes 3 bytes with its operands; the script ends after 2\n",
            "22" => "no 22 7: at offset 7 stands 07, a pop; this is out of turn before 04\n",
            _ => "",
        };
        said += usize::from(!sentence.is_empty());
        assert_eq!(output.status.code(), Some(1), "{name}");
        assert_eq!(text(output.stdout), samples::read(&path).promised);
        assert!(text(output.stderr).starts_with(sentence), "{name}");

        // The sheet is refused where 04 is.
        let sheet = script("run", &[&"drawtrees", &path]);
        let refused = !["13", "14", "15", "16"].contains(&name);
        assert_eq!(sheet.status.code(), Some(i32::from(refused)), "{name}");
    }
    assert_eq!(said, 5);
    println!("refusals: status 1, and what they mean");
}

/// What is said of 09, 0A and the bytes around them.
fn wide_commands(folder: &Folder) {
    for (commands, said) in [
        ("08", "08, which is no command\n"),
        ("0b", "0B, which is no command\n"),
        (
            "0a 00",
            "0A, a push with a wide rank, which takes 13 bytes with its operands; the script ends after 2\n",
        ),
        (
            "09 01 00 00 00 00 00 00 00 00",
            "09, a step with a wide rank; this is out of turn before 04, and after eight steps with no push between\n",
        ),
    ] {
        let sample = folder.file("wide.hex", commands.as_bytes());
        let output = script("run", &[&"gatewalk", &sample]);
        assert_eq!(output.status.code(), Some(1), "{commands}");
        let errors = text(output.stderr);
        assert!(errors.contains(&format!(": at offset 0 stands {said}")), "{errors}");
    }
    println!("09 and 0A: said what they are");
}

/// Names that a tool could take for something else, links, and a folder.
fn file_names(folder: &Folder) {
    let sample = b"01 00 02 00 03 00 01 04";
    for name in ["a=b.hex", "-x.hex", "two words.hex", "#.hex"] {
        folder.file(name, sample);
        for (tool, arguments) in [
            ("run", vec!["gatewalk", name]),
            ("offsets", vec![name]),
            ("compare", vec![name]),
        ] {
            let output = folder
                .command(&samples::folder().join(tool))
                .args(arguments)
                .output();
            let output = output.expect("a script that starts");
            assert_eq!(output.status.code(), Some(0), "{tool} {name}");
            assert!(!output.stdout.is_empty(), "{tool} {name}");
        }
    }
    let garden = samples::folder().join("garden.hex");
    for tool in ["bytes", "offsets", "run", "compare"] {
        let link = folder.path.join(format!("link-to-{tool}"));
        symlink(samples::folder().join(tool), &link).expect("a link");
        let program = (tool == "run").then_some("buychip");
        let output = folder.command(&link).args(program).arg(&garden).output();
        let output = output.expect("a script that starts");
        assert_eq!(output.status.code(), Some(0), "{tool}");
        assert!(!output.stdout.is_empty(), "{tool}");
    }
    refused(
        &script("run", &[&"gatewalk", &folder.path]),
        1,
        "no file that can be read",
    );
    println!("file names: as they are");
}

/// A script of more bytes than are read, and an output that cannot be written.
fn whole_output(folder: &Folder) {
    let opening = "01 00 02 00 03 00 01 04\n";
    let long = folder.file(
        "long.hex",
        format!("{opening}{}", "00\n".repeat(65_529)).as_bytes(),
    );
    let output = script("run", &[&"gatewalk", &long]);
    assert!(text(output.stderr).contains("has 65537 bytes; gatewalk reads only the first 65,536\n"));
    refused(&script("compare", &[&long]), 1, "too long");

    let short = folder.file("short.hex", opening.as_bytes());
    let full = File::options()
        .write(true)
        .open("/dev/full")
        .expect("a full disk");
    let mut command = Command::new(samples::folder().join("run"));
    let status = command
        .arg("gatewalk")
        .arg(short)
        .stdout(full)
        .stderr(Stdio::null())
        .status();
    assert_eq!(status.expect("a script that starts").code(), Some(1));
    println!("too long or not all written: said");
}

/// `samples/run readtree` shows both trees of a script.
fn trees(folder: &Folder) {
    let sample = folder.file(
        "trees.hex",
        b"01 02  02 01  01 00  02 00  01 00  03 00 01  04  02 00",
    );
    let output = script("run", &[&"readtree", &sample]);
    assert_eq!(output.status.code(), Some(0));
    let expected = "the drawing:\nnode children end\n0 2 3\n1 0 2\n2 0 3\n\
                    the chip:\nnode children end\n0 1 2\n1 0 2\n";
    assert_eq!(text(output.stdout), expected);
    let alone = folder.file("alone.hex", b"02 00 00");
    let output = script("run", &[&"readtree", &alone]);
    assert_eq!(output.status.code(), Some(1));
    assert!(text(output.stderr).contains("no command 01"));
    println!("readtree: both trees");
}

/// `samples/compare` shows both columns, with the offsets of the sample.
fn compared(folder: &Folder) {
    for name in ["garden.hex", "hut.hex", "wide.hex"] {
        let path = samples::folder().join(name);
        let output = script("compare", &[&path]);
        assert_eq!(output.status.code(), Some(0), "{name}");
        let answers: Vec<String> = samples::read(&path)
            .promised
            .lines()
            .skip(1)
            .map(str::to_string)
            .collect();
        let shown = text(output.stdout);
        let shown: Vec<(&str, &str)> = shown
            .lines()
            .skip(2)
            .map(|line| line.split_at(24))
            .collect();
        assert_eq!(shown.len(), answers.len());
        for ((drawn, chip), answer) in shown.into_iter().zip(answers) {
            assert_eq!((drawn.trim_end(), chip), (&answer[..], &answer[..]));
        }
    }
    for number in ["12", "01", "22"] {
        let path = samples::folder().join(format!("refusals/{number}.hex"));
        let output = script("compare", &[&path]);
        assert_eq!(output.status.code(), Some(1));
        assert!(text(output.stderr).contains("nothing was compared"));
    }
    // The chip's nodes before those of the drawing, and 04 refused for another reason.
    let mixed = folder.file("mixed.hex", b"02 00  03 01 01  01 00  04");
    let shown = text(script("compare", &[&mixed]).stdout);
    assert!(
        shown.ends_with("no 17 7                 no 17 7\n"),
        "{shown}"
    );
    println!("compare: equal answers");
}

/// The garden has a map into each chip that `samples/chip` prints.
fn chips(folder: &Folder) {
    let garden = samples::folder().join("garden.hex");
    let drawing = fs::read_to_string(&garden).expect("the garden");
    let table = text(script("run", &[&"buychip", &garden]).stdout);
    let mut loaded = 0;
    for (d, line) in CHILDREN.zip(table.lines()) {
        let chip = script("chip", &[&d.to_string(), &garden]);
        if line.ends_with("cannot be loaded by this software") {
            refused(&chip, 1, line);
            continue;
        }
        assert_eq!(chip.status.code(), Some(0), "{line}");
        let chip = text(chip.stdout);
        let nodes = chip.lines().filter(|line| line.starts_with("02 ")).count();
        assert!(line.contains(&format!(" {nodes} nodes")), "{line}");
        // The chip's commands in place of the garden's own.
        let own = |line: &&str| !line.starts_with("02 ");
        let kept: Vec<&str> = drawing.lines().filter(own).collect();
        let kept = kept.join("\n").replace("\n03 ", &format!("\n{chip}03 "));
        let sample = folder.file("bought.hex", kept.as_bytes());
        let walked = text(script("run", &[&"gatewalk", &sample]).stdout);
        assert!(walked.starts_with("map 0 "), "{d}: {walked}");
        loaded += 1;
    }
    assert_eq!(loaded, 6);
    refused(&script("chip", &[&"9", &garden]), 2, "usage: ");
    let fault = samples::folder().join("refusals/01.hex");
    assert_eq!(text(script("chip", &[&"2", &fault]).stdout), "no 1 9\n");
    println!("chips: {loaded} are loaded");
}

/// A program is built if it is missing or older than what it rests on, with an
/// `rt` in place of the kit's that counts how often it was called.
fn built(folder: &Folder) {
    let root = folder.path.join("repository");
    let make = |name: &str, text: &str| {
        let path = root.join(name);
        fs::create_dir_all(path.parent().expect("a folder")).expect("a folder");
        fs::write(&path, text).expect("a file");
        path
    };
    let executable = |path: &Path| {
        fs::set_permissions(path, fs::Permissions::from_mode(0o755)).expect("a script");
    };
    for name in [
        "bytes",
        "commands",
        "commands.txt",
        "build",
        "run",
        "compare",
    ] {
        let copy = root.join("samples").join(name);
        make("samples/none", "");
        fs::copy(samples::folder().join(name), copy).expect("a copy");
    }
    make(
        "crates.txt",
        "base:\nlow: base io\ngatewalk: low  # a program\nother staticlib: base\n",
    );
    make("crates/base/src/lib.rt", "");
    make("crates/low/proofs/Law.antt", "");
    make("crates/gatewalk/src/main.rt", "");
    make("crates/other/src/lib.rt", "");
    let sample = make("sample.hex", "01 00  01 00  02 00  03 00 01  04");
    // The program answers by the length of its script, so that two scripts differ.
    let program = "#!/bin/sh\\necho map 0\\necho in $(wc -c)\\n";
    let kit = format!(
        "#!/bin/sh\necho called >> ../../calls\n[ \"$*\" = run ] || exit 1\n\
         [ ! -e ../../broken ] || {{ echo 'rt: FAILED: gatewalk' >&2; exit 1; }}\n\
         mkdir -p out\nprintf '{program}' > out/gatewalk\nchmod +x out/gatewalk\n\
         echo 'rt: gatewalk proved (1 s)' >&2\n\
         echo 'rt: running out/gatewalk; to give it other input, run that file yourself' >&2\nout/gatewalk\n"
    );
    executable(&make("kit/rt", &kit));
    let path = format!(
        "{}:{}",
        root.join("kit").display(),
        env::var("PATH").expect("a PATH")
    );
    let walk = |tool: &str, arguments: &[&str]| {
        let mut command = Command::new(root.join("samples").join(tool));
        let output = command
            .args(arguments)
            .arg(&sample)
            .env("PATH", &path)
            .output();
        output.expect("a script that starts")
    };
    let calls = || fs::read_to_string(root.join("calls")).map_or(0, |text| text.lines().count());

    let first = walk("run", &["gatewalk"]);
    assert_eq!(text(first.stdout), "map 0\nin 10\n");
    let said = text(first.stderr);
    assert!(
        said.starts_with("building gatewalk for the first time"),
        "{said}"
    );
    assert!(said.ends_with("gatewalk proved (1 s)\n"), "{said}");
    let second = walk("run", &["gatewalk"]);
    assert!(second.stderr.is_empty() && calls() == 1);

    // Only what the program rests on counts.
    thread::sleep(Duration::from_millis(20));
    make("crates/other/src/lib.rt", "// changed");
    assert!(walk("run", &["gatewalk"]).stderr.is_empty() && calls() == 1);
    for changed in [
        "crates/low/proofs/Law.antt",
        "crates/base/src/lib.rt",
        "crates.txt",
    ] {
        let before = calls();
        let text_of = fs::read_to_string(root.join(changed)).expect("a source");
        make(changed, &text_of);
        let again = text(walk("run", &["gatewalk"]).stderr);
        assert!(
            again.starts_with("building gatewalk, which is older"),
            "{again}"
        );
        assert!(walk("run", &["gatewalk"]).stderr.is_empty());
        assert_eq!(calls(), before + 1, "{changed}");
    }
    // Two trees that answer otherwise: the script with its drawing as chip is longer.
    let differing = walk("compare", &[]);
    assert_eq!(differing.status.code(), Some(1));
    assert!(text(differing.stdout).ends_with("in 12                   in 10   <- differs\n"));
    assert_eq!(text(differing.stderr), "1 answers differ\n");

    make("broken", "");
    make("crates/gatewalk/src/main.rt", "// changed");
    let broken = walk("run", &["gatewalk"]);
    refused(
        &broken,
        1,
        "gatewalk was not built; the end of what rt said:\nrt: FAILED: gatewalk\n",
    );
    println!("built: what is missing or older than its sources");
}

/// Nothing is written but what is said.
fn refused(output: &Output, status: i32, said: &str) {
    let errors = String::from_utf8_lossy(&output.stderr);
    assert_eq!(output.status.code(), Some(status), "{errors}");
    assert!(output.stdout.is_empty(), "{errors}");
    assert!(errors.contains(said), "{errors}");
}

/// What a script of the samples does.
fn script(name: &str, arguments: &[&dyn AsRef<std::ffi::OsStr>]) -> Output {
    let mut command = Command::new(samples::folder().join(name));
    for argument in arguments {
        command.arg(argument.as_ref());
    }
    command.output().expect("a script that starts")
}

/// A folder for samples, which goes when it is dropped.
struct Folder {
    path: PathBuf,
}

impl Folder {
    fn new() -> Folder {
        let path = env::temp_dir().join(format!("linduvar-{}", process::id()));
        fs::create_dir(&path).expect("a folder");
        Folder { path }
    }

    fn file(&self, name: &str, bytes: &[u8]) -> PathBuf {
        let path = self.path.join(name);
        fs::write(&path, bytes).expect("a file");
        path
    }

    /// A command that runs in the folder.
    fn command(&self, script: &Path) -> Command {
        let mut command = Command::new(script);
        command.current_dir(&self.path);
        command
    }
}

impl Drop for Folder {
    fn drop(&mut self) {
        fs::remove_dir_all(&self.path).expect("the folder");
    }
}
