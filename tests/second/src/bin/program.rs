//! Gives a built program journals and other bytes on its standard input and compares what it prints
//! with the answer of this implementation: a recording, a page, or a converted journal or its refusal,
//! as the program's name and argument say. Then makes its reads and writes fail and compares what it
//! says on standard error; and calls the converter with wrong arguments.

use second::conversion::{convert, Conversion};
use second::edition::EDITIONS;
use second::generate;
use second::limits::{doubled, gates, heaviest, longest, widest};
use second::print;
use std::fs::{File, OpenOptions};
use std::io::Write;
use std::os::fd::OwnedFd;
use std::os::unix::net::UnixStream;
use std::path::Path;
use std::process::{Child, ChildStdin, Command, Output, Stdio};
use std::thread::sleep;
use std::time::Duration;

/// How the bytes come to the program.
#[derive(Clone, Copy, Debug)]
enum Way {
    /// Written to a pipe at once.
    Whole,
    /// Written to a pipe byte by byte, so that a read gets a few of them.
    Slow,
    /// In a file.
    File,
}

const PAUSE: Duration = Duration::from_micros(50);

/// How many differences are shown.
const SHOWN: u32 = 3;

/// What a program writes: on standard output, and on standard error.
#[derive(PartialEq, Eq)]
struct Answer {
    printed: Vec<u8>,
    said: String,
}

impl Answer {
    fn of(output: &Output) -> Answer {
        Answer {
            printed: output.stdout.clone(),
            said: String::from_utf8_lossy(&output.stderr).to_string(),
        }
    }

    fn printed(printed: impl Into<Vec<u8>>) -> Answer {
        Answer {
            printed: printed.into(),
            said: String::new(),
        }
    }

    fn said(said: impl Into<String>) -> Answer {
        Answer {
            printed: Vec::new(),
            said: said.into(),
        }
    }

    /// The first part of what is printed and what is said.
    fn cut(&self) -> String {
        let printed = String::from_utf8_lossy(&self.printed);
        let printed: String = printed.chars().take(80).collect();
        format!("{printed:?}, {:?}", self.said)
    }
}

/// The converted journal, or the refusal on standard error.
fn converted(conversion: Conversion, journal: &[u8]) -> Answer {
    let mut lent = vec![0; journal.len()];
    let answer = convert(conversion, journal, &mut lent);
    match answer.refusal {
        0 => Answer::printed(&lent[..answer.written]),
        refusal => Answer::said(print::refused(refusal)),
    }
}

/// What a program does with a journal.
#[derive(Clone, Copy)]
enum Task {
    Record,
    Page,
    Convert(Conversion),
}

/// A program that is tried, and at what.
struct Program<'a> {
    path: &'a str,
    name: &'static str,
    task: Task,
}

const CONVERTER: &str = "cut_convert";

/// The programs by the names of their files.
const PROGRAMS: [(&str, &[Task]); 3] = [
    ("cut_recorder", &[Task::Record]),
    ("cut_page", &[Task::Page]),
    (
        CONVERTER,
        &[
            Task::Convert(Conversion::Upgrade),
            Task::Convert(Conversion::Downgrade),
        ],
    ),
];

impl Program<'_> {
    /// The program at a path with each of its tasks; none where its file has another name than those
    /// above.
    fn at(path: &str) -> Vec<Program<'_>> {
        let file = Path::new(path).file_name();
        let mut programs = PROGRAMS.into_iter();
        let named = programs.find(|(name, _)| file == Some(name.as_ref()));
        let (name, tasks) = named.unwrap_or(("", &[]));
        let tasks = tasks.iter();
        tasks.map(|&task| Program { path, name, task }).collect()
    }

    /// The conversion that its argument names, where it has one.
    fn conversion(&self) -> Option<Conversion> {
        match self.task {
            Task::Convert(conversion) => Some(conversion),
            _ => None,
        }
    }

    fn argument(&self) -> Option<&'static str> {
        self.conversion().map(Conversion::word)
    }

    /// The name with the argument.
    fn called(&self) -> String {
        let words = [self.name].into_iter().chain(self.argument());
        words.collect::<Vec<_>>().join(" ")
    }

    /// What it answers to a journal.
    fn answer(&self, journal: &[u8]) -> Answer {
        match self.task {
            Task::Record => Answer::printed(print::line(journal)),
            Task::Page => Answer::printed(print::page(journal)),
            Task::Convert(conversion) => converted(conversion, journal),
        }
    }

    /// A journal with a long answer.
    fn long(&self) -> Vec<u8> {
        match self.task {
            Task::Convert(conversion) => longest_of(conversion),
            _ => generate::bytes_of(&widest(1)),
        }
    }

    /// What it says on standard error where a read fails.
    fn not_read(&self) -> String {
        format!("{}: standard input could not be read\n", self.name)
    }

    /// The same where a write fails.
    fn not_written(&self) -> String {
        format!("{}: the answer was not written whole\n", self.name)
    }
}

/// A run in which a read or a write failed: what the program did, and what it should have written.
struct Failed {
    name: String,
    output: Output,
    expected: Answer,
}

/// An input with its name.
struct Input {
    name: String,
    bytes: Vec<u8>,
}

impl Input {
    fn new(name: &str, bytes: Vec<u8>) -> Input {
        let name = name.to_string();
        Input { name, bytes }
    }
}

fn main() {
    let arguments: Vec<String> = std::env::args().collect();
    let [_, path, stored, scratch] = &arguments[..] else {
        usage();
    };
    let programs = Program::at(path);
    if programs.is_empty() {
        usage();
    }
    let stored = split(&std::fs::read(stored).expect("the stored journals can be read"));
    let mut wrong = 0;
    for program in &programs {
        wrong += others(program, &stored, scratch);
        let mut failed = unread(program, scratch);
        failed.extend(unwritten(program, scratch));
        if program.conversion().is_some() {
            failed.extend(unused(program));
        }
        wrong += untold(&program.called(), "failures made", &failed);
    }
    if programs[0].name == CONVERTER {
        let misused = misused(path, scratch);
        wrong += untold(CONVERTER, "times called with wrong arguments", &misused);
    }
    std::process::exit(i32::from(wrong != 0));
}

fn usage() -> ! {
    let names = PROGRAMS.map(|(name, _)| name).join(" or ");
    eprintln!("usage: program PROGRAM JOURNALS-FILE SCRATCH-FILE, where PROGRAM's file is {names}");
    std::process::exit(2);
}

/// Compares what the program answers to stored journals and to other inputs; how many answers are
/// others.
fn others(program: &Program, stored: &[Input], scratch: &str) -> u32 {
    let mut made = made();
    if let Some(conversion) = program.conversion() {
        made.extend(made_for(conversion));
    }
    let mut inputs: Vec<(Way, &Input)> = stored.iter().map(|input| (Way::Whole, input)).collect();
    for way in [Way::Whole, Way::Slow, Way::File] {
        // What is longer than a pipe holds is not worth a pause a byte.
        let short = |input: &&Input| !matches!(way, Way::Slow) || input.bytes.len() < 4_096;
        inputs.extend(made.iter().filter(short).map(|input| (way, input)));
    }
    let (who, mut wrong) = (program.called(), 0);
    for (way, input) in &inputs {
        let expected = program.answer(&input.bytes);
        let output = run(program, *way, &input.bytes, scratch);
        let answer = Answer::of(&output);
        if !output.status.success() || answer != expected {
            wrong += 1;
            if wrong <= SHOWN {
                let (name, bytes) = (&input.name, input.bytes.len());
                println!("{who}: {name}, {bytes} bytes, {way:?}: {}", output.status);
                println!("  answered {}", answer.cut());
                println!("  expected {}", expected.cut());
            }
        }
    }
    println!("{who}: {} inputs compared, {wrong} differ", inputs.len());
    wrong
}

/// How many of these runs do not tell what failed as expected.
fn untold(who: &str, what: &str, failed: &[Failed]) -> u32 {
    let mut wrong = 0;
    for run in failed {
        let (name, status) = (&run.name, run.output.status);
        let answer = Answer::of(&run.output);
        if !status.success() || answer != run.expected {
            wrong += 1;
            println!("{who}: {name}: {status}");
            println!("  answered {}", answer.cut());
            println!("  expected {}", run.expected.cut());
        }
    }
    let made = failed.len();
    println!("{who}: {made} {what}, {wrong} not told as expected");
    wrong
}

/// The journals of a file that has each behind its length in 16 bits, high byte first.
fn split(mut bytes: &[u8]) -> Vec<Input> {
    let mut inputs = Vec::new();
    while let [high, low, rest @ ..] = bytes {
        let length = usize::from(u16::from_be_bytes([*high, *low]));
        assert!(length <= rest.len(), "a stored journal is whole");
        let (journal, rest) = rest.split_at(length);
        let name = format!("stored journal {}", inputs.len() + 1);
        inputs.push(Input::new(&name, journal.to_vec()));
        bytes = rest;
    }
    assert!(bytes.is_empty(), "no byte is left over");
    assert!(!inputs.is_empty(), "there are stored journals");
    inputs
}

/// The inputs at the edges: nothing, the shortest, the longest journal, too long ones, and those
/// whose printed texts are long or have high numbers.
fn made() -> Vec<Input> {
    let longest = generate::bytes_of(&longest());
    assert_eq!(longest.len(), 2_018);
    let gates = generate::bytes_of(&gates());
    assert_eq!(gates.len(), 2_018);
    let [widest, widest_2, widest_3] = EDITIONS.map(|edition| generate::bytes_of(&widest(edition)));
    let checks = 49;
    for (widest, items) in [
        (&widest, 881),
        (&widest_2, 881 - checks),
        (&widest_3, 881 - checks),
    ] {
        assert_eq!(print::line(widest).len(), 3 * (2 + 4 * 8 + 2 * items));
        assert_eq!(print::page(widest).len(), 17 * (8 + 49 + 1));
    }
    let followed = |length: usize| {
        let mut bytes = longest.clone();
        bytes.resize(length, 0);
        bytes
    };
    vec![
        Input::new("nothing", Vec::new()),
        Input::new("one byte", vec![0x28]),
        Input::new("a header alone", vec![0x28, 0x00]),
        Input::new("case A", generate::CASE_A.to_vec()),
        Input::new("the longest journal", longest.clone()),
        Input::new("one byte less", followed(2_017)),
        Input::new("one byte more", followed(2_019)),
        Input::new("the longest and zeros", followed(100_000)),
        Input::new("zeros", vec![0; 100_000]),
        Input::new("many items", widest),
        Input::new("many items and line checks", widest_2),
        Input::new("many items and line checks in edition 3", widest_3),
        Input::new("the longest journal of gates", gates),
        Input::new("a total above 65,535", generate::GATED[0].to_vec()),
        Input::new("a total of six digits", generate::bytes_of(&doubled())),
        Input::new("a line above 65,535", generate::bytes_of(&heaviest())),
    ]
}

/// The longest journal in the edition that is converted.
fn longest_of(conversion: Conversion) -> Vec<u8> {
    generate::with_edition(conversion.source(), &generate::bytes_of(&longest()))
}

/// More inputs for a conversion: journals of its edition, with what it refuses at the last record, and
/// with more behind them than it looks at.
fn made_for(conversion: Conversion) -> Vec<Input> {
    let longest = longest_of(conversion);
    let ended = |word: [u8; 2]| {
        let mut bytes = longest.clone();
        bytes[2_016..].copy_from_slice(&word);
        bytes
    };
    let followed = |length: usize, byte: u8| {
        let mut bytes = longest.clone();
        bytes.resize(length, byte);
        bytes
    };
    let first = 32 * conversion.source() as u8;
    vec![
        Input::new("one byte of the edition", vec![first + 4]),
        Input::new("a header of the edition alone", vec![first + 4, 0]),
        Input::new("no record", vec![first + 4, 0, 0, 5, 0, 7]),
        Input::new("the longest journal of the edition", longest.clone()),
        Input::new("a byte less of it", longest[..2_017].to_vec()),
        Input::new("a byte more of it", followed(2_019, 0)),
        Input::new("more behind it", followed(2_020, 1)),
        Input::new("much more behind it", followed(100_000, 0xFF)),
        Input::new("0 cars at the last record", ended([0x01, 0])),
        Input::new("a gate at the last record", ended([0xC0, 1])),
        Input::new("a refused last record", ended([0x40, 0])),
    ]
}

fn started(program: &Program, input: Stdio) -> Child {
    let mut command = Command::new(program.path);
    begun(command.args(program.argument()), input, Stdio::piped())
}

/// Starts the program by a shell, which has prepared what it inherits.
fn prepared(script: &str, program: &Program, input: Stdio, output: Stdio) -> Child {
    let mut command = Command::new("sh");
    command.args(["-c", script, program.path]);
    begun(command.args(program.argument()), input, output)
}

fn begun(command: &mut Command, input: Stdio, output: Stdio) -> Child {
    command
        .stdin(input)
        .stdout(output)
        .stderr(Stdio::piped())
        .spawn()
        .expect("the program can be started")
}

fn ended(child: Child) -> Output {
    child.wait_with_output().expect("the program ends")
}

/// Runs the program on these bytes.
fn run(program: &Program, way: Way, bytes: &[u8], scratch: &str) -> Output {
    if let Way::File = way {
        std::fs::write(scratch, bytes).expect("the scratch file can be written");
        let file = File::open(scratch).expect("the scratch file can be read");
        return ended(started(program, file.into()));
    }
    let mut child = started(program, Stdio::piped());
    let pipe = child.stdin.take().expect("the program has a pipe");
    write(pipe, way, bytes);
    ended(child)
}

/// Writes to the program and closes the pipe. The program may end without reading all: then what it
/// printed tells.
fn write(mut pipe: ChildStdin, way: Way, bytes: &[u8]) {
    let part = match way {
        Way::Slow => 1,
        _ => bytes.len().max(1),
    };
    for bytes in bytes.chunks(part) {
        if pipe.write_all(bytes).is_err() {
            return;
        }
        if let Way::Slow = way {
            sleep(PAUSE);
        }
    }
}

/// Standard inputs that cannot be read, or not to their end: nothing is to be printed.
fn unread(program: &Program, scratch: &str) -> Vec<Failed> {
    let closed = prepared(WITHOUT_INPUT, program, Stdio::null(), Stdio::piped());
    let directory = File::open("/").expect("the root directory can be opened");
    let written = File::create(scratch).expect("the scratch file can be made");
    [
        ("a closed input", closed),
        (
            "a directory as the input",
            started(program, directory.into()),
        ),
        (
            "an input that is open for writing",
            started(program, written.into()),
        ),
        (
            "an input that breaks off",
            started(program, broken(&generate::CASE_A)),
        ),
    ]
    .into_iter()
    .map(|(name, child)| Failed {
        name: name.to_string(),
        output: ended(child),
        expected: Answer::said(program.not_read()),
    })
    .collect()
}

/// An input that has these bytes and then fails: a socket whose other end was closed with a byte
/// unread.
fn broken(bytes: &[u8]) -> Stdio {
    let (mut near, mut far) = UnixStream::pair().expect("there are sockets");
    far.write_all(bytes).expect("the bytes can be sent");
    near.write_all(&[0]).expect("a byte can be sent");
    drop(far);
    OwnedFd::from(near).into()
}

/// What a shell does that gives the program its place.
const PLAINLY: &str = "exec \"$0\" \"$@\"";
const WITHOUT_INPUT: &str = "exec \"$0\" \"$@\" <&-";
const WITHOUT_OUTPUT: &str = "exec \"$0\" \"$@\" >&-";
// A process that does not ignore the signal of a pipe without a reader, or of a file at its limit, is
// ended by it. The limit is 512 bytes, which is a part of a page too.
const UNREAD: &str = "trap '' PIPE; exec \"$0\" \"$@\"";
const LIMITED: &str = "trap '' XFSZ; ulimit -f 1; exec \"$0\" \"$@\"";

fn full_device() -> Stdio {
    let full = OpenOptions::new().write(true).open("/dev/full");
    full.expect("the full device can be opened").into()
}

/// Standard outputs that take nothing, or a part of the answer.
fn unwritten(program: &Program, scratch: &str) -> Vec<Failed> {
    let journal = program.long();
    let given = |script: &str, output: Stdio| given(program, script, output, &journal);
    let short = File::create(scratch).expect("the scratch file can be made");
    let mut part = given(LIMITED, short.into());
    part.stdout = std::fs::read(scratch).expect("the scratch file can be read");
    let whole = program.answer(&journal).printed;
    let length = part.stdout.len();
    assert!(0 < length && length < whole.len(), "a part is written");
    let told = |name: &str, output, printed: &[u8]| Failed {
        name: name.to_string(),
        output,
        expected: Answer {
            printed: printed.to_vec(),
            said: program.not_written(),
        },
    };
    let closed = given(WITHOUT_OUTPUT, Stdio::null());
    let full = given(PLAINLY, full_device());
    let unread = given(UNREAD, Stdio::piped());
    vec![
        told("a closed output", closed, &[]),
        told("a full device as the output", full, &[]),
        told("a pipe without a reader as the output", unread, &[]),
        told("an output that takes a part", part, &whole[..length]),
    ]
}

/// The same beside a refusal of the converter, which prints nothing there.
fn unused(program: &Program) -> Vec<Failed> {
    let refused = |name: &str, script: &str, output: Stdio| Failed {
        name: name.to_string(),
        output: given(program, script, output, &[]),
        expected: program.answer(&[]),
    };
    vec![
        refused("a refusal, a closed output", WITHOUT_OUTPUT, Stdio::null()),
        refused("a refusal, a full device", PLAINLY, full_device()),
    ]
}

/// Runs the program by a shell on these bytes. Where the output is a pipe, its reader goes away before
/// there is an answer.
fn given(program: &Program, script: &str, output: Stdio, bytes: &[u8]) -> Output {
    let mut child = prepared(script, program, Stdio::piped(), output);
    drop(child.stdout.take());
    let pipe = child.stdin.take().expect("the program has a pipe");
    write(pipe, Way::Whole, bytes);
    ended(child)
}

/// Arguments that the converter has no use for: none, another one, or one more.
const WRONG_ARGUMENTS: [&[&str]; 13] = [
    &[],
    &[""],
    &["up"],
    &["upgrad"],
    &["upgrades"],
    &["Upgrade"],
    &["downgraded"],
    &["upgrade upgrade upgrade"],
    &["--help"],
    &["upgrade", ""],
    &["upgrade", "upgrade"],
    &["upgrade", "downgrade"],
    &["downgrade", "upgrade", "upgrade"],
];

/// Calls of the converter with these, on a journal and without an input, which it does not read.
fn misused(path: &str, scratch: &str) -> Vec<Failed> {
    std::fs::write(scratch, generate::CASE_A).expect("the scratch file can be written");
    let mut failed = Vec::new();
    for list in WRONG_ARGUMENTS {
        let journal = File::open(scratch).expect("the scratch file can be read");
        let (mut plainly, mut shell) = (Command::new(path), Command::new("sh"));
        let shell = shell.args(["-c", WITHOUT_INPUT, path]).args(list);
        let children = [
            begun(plainly.args(list), journal.into(), Stdio::piped()),
            begun(shell, Stdio::null(), Stdio::piped()),
        ];
        failed.extend(children.map(|child| Failed {
            name: format!("the arguments {list:?}"),
            output: ended(child),
            expected: Answer::said(format!("usage: {CONVERTER} upgrade|downgrade\n")),
        }));
    }
    failed
}
