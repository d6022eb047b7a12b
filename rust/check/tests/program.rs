//! The program: a block file on standard input, the search's answer and pattern on standard output, and a
//! line on standard error where the one cannot be read or the other cannot be written.
//!
//! It is `target/bin/estimate`, which the gate builds before it runs the tests, and `./run` where need be.

use std::fs::{self, File};
use std::io::{ErrorKind, Write};
use std::os::fd::OwnedFd;
use std::os::unix::net::UnixStream;
use std::path::{Path, PathBuf};
use std::process::{Child, Command, Stdio};
use std::thread;
use std::time::{Duration, Instant};

use check::implementation::SECOND;
use check::sample::{
    cone_list, damage, drawing, gate, input, peaks, switching_at, Arguments, Random, Record, Shape,
};
use check::second;
use zimgurav::excitation::{H, HL, L, LH};
use zimgurav::kind::{AND, BUF, NOT};

/// The most bytes that the program reads: 256 records.
const MOST_BYTES: usize = 5_120;

fn program() -> PathBuf {
    let path = Path::new(env!("CARGO_MANIFEST_DIR")).join("../../target/bin/estimate");
    assert!(
        path.is_file(),
        "{} is not there: `./run` builds it",
        path.display()
    );
    path
}

/// Starts a command with this standard input and output, and a pipe for standard error.
fn start(command: &mut Command, input: impl Into<Stdio>, output: impl Into<Stdio>) -> Child {
    let command = command.stdin(input).stdout(output).stderr(Stdio::piped());
    command.spawn().expect("the program starts")
}

/// Starts the program with this standard input, and a pipe for standard output.
fn start_on(input: impl Into<Stdio>) -> Child {
    start(&mut Command::new(program()), input, Stdio::piped())
}

/// What the program writes on standard output, where that is a pipe, and on standard error. Its status is
/// 0 however it ends.
fn written(mut child: Child) -> [String; 2] {
    let started = Instant::now();
    while child.try_wait().expect("a status").is_none() {
        if started.elapsed() > Duration::from_secs(60) {
            child.kill().expect("the program is killed");
            panic!("the program does not end");
        }
        thread::sleep(Duration::from_millis(1));
    }
    let output = child.wait_with_output().expect("what was written");
    assert!(output.status.success(), "{}", output.status);
    [output.stdout, output.stderr].map(|bytes| String::from_utf8(bytes).expect("text"))
}

/// What the program prints for these pieces of standard input, one written after the other. It writes
/// nothing on standard error.
fn printed<'a>(pieces: impl IntoIterator<Item = &'a [u8]>) -> String {
    let mut child = start_on(Stdio::piped());
    let mut stdin = child.stdin.take().expect("a pipe");
    for piece in pieces {
        match stdin.write_all(piece) {
            // The program need not read more than it can use.
            Err(error) if error.kind() == ErrorKind::BrokenPipe => break,
            written => written.expect("the program reads"),
        }
    }
    drop(stdin);
    let [output, error] = written(child);
    assert_eq!(error, "", "on standard error");
    output
}

#[track_caller]
fn prints(file: &[u8], expected: &str) {
    assert_eq!(printed([file]), expected);
}

/// What the second implementation lets expect: one node of 16 resistances of 1, 10 hops, ratio 1,000,
/// budget 200 and the inputs in the order of their cones, as in `Arguments::new`.
fn expected(file: &[u8]) -> String {
    if file.len() > MOST_BYTES {
        return "refused 2 0\n".to_string();
    }
    let mut arguments = Arguments {
        file: file.to_vec(),
        work: vec![0; 160 * 256],
        order: cone_list(file),
        ..Arguments::new(&[])
    };
    match arguments.search(&SECOND) {
        Err(refusal) => format!("refused {} {}\n", refusal.number, refusal.place),
        Ok(found) => {
            let counts = second::read(file).expect("accepted");
            let pattern = &arguments.pattern[..counts.inputs as usize];
            let words: Vec<&str> = pattern.iter().map(|&byte| word(byte)).collect();
            let numbers = [found.upper, found.lower, found.splits, found.cases];
            let numbers = numbers.map(|number| number.to_string()).join(" ");
            format!("{} {numbers}\n{}\n", found.outcome, words.join(" "))
        }
    }
}

fn word(byte: u8) -> &'static str {
    match byte {
        L => "l",
        H => "h",
        HL => "hl",
        LH => "lh",
        _ => panic!("no excitation has byte {byte}"),
    }
}

/// An input and buffers of it, `records` records together.
fn fan(records: usize) -> Vec<u8> {
    let mut block = vec![gate(BUF, &[0]); records];
    block[0] = input(15);
    block.concat()
}

const BLOCK_S: &[u8; 60] = include_bytes!("../../../examples/block_s.blk");

mod examples {
    use super::*;

    #[test]
    fn block_s() {
        prints(BLOCK_S, "exact 10 10 1 4\nlh\n");
    }

    /// With resistances of 1 the envelope drops 10 + 47 at tick 2, both lh 10 + 46. Of the children at net 0, lh drops
    /// 56, and l and hl drop 31.
    #[test]
    fn block_f() {
        let file = include_bytes!("../../../examples/block_f.blk");
        prints(file, "exact 56 56 1 4\nlh lh\n");
    }

    /// At tick 1 the first two gates have 15.5 and 16.5, and both are rounded to 16.
    #[test]
    fn halves() {
        let rising = |slope, peak| drawing(gate(BUF, &[0]), [0, 1, slope, slope], [peak, 0]);
        let block = [input(15), rising(2, 31), rising(2, 33), rising(1, 50)];
        prints(&block.concat(), "exact 82 82 0 1\nlh\n");
    }

    /// Net 4 switches at ticks 1 to 4. Its pulses, from ticks 0 to 3 on, are 0, 10, 20, 30, 40, 30, 20, 10: at tick 5
    /// they have 30 + 40 + 30 + 20.
    #[test]
    fn sums() {
        let mut block = switching_at(4, 15);
        block[4] = drawing(block[4], [0, 1, 4, 4], [40, 40]);
        prints(&block.concat(), "exact 120 120 0 1\nlh\n");
    }

    #[test]
    fn adder24() {
        let file = include_bytes!("../../../examples/adder24.blk");
        let first = format!("h h h{}", " lh".repeat(21));
        let second = format!(" hl l hl{}", " lh".repeat(21));
        prints(
            file,
            &format!("spent 11617 3889 200 601\n{first}{second} l\n"),
        );
    }

    /// One word for each input, whichever excitation it is.
    #[test]
    fn inputs_alone() {
        let sets = [1, 2, 4, 8, 3, 7, 15];
        let block = sets.map(input).concat();
        prints(&block, "exact 0 0 0 1\nl h hl lh h hl lh\n");
        prints(&input(1), "exact 0 0 0 1\nl\n");
    }

    #[test]
    fn as_many_inputs_as_there_can_be() {
        let block = [input(4); 64].concat();
        let words = ["hl"; 64].join(" ");
        prints(&block, &format!("exact 0 0 0 1\n{words}\n"));
    }

    /// 255 gates that draw 65,535 each.
    #[test]
    fn as_many_gates_as_there_can_be() {
        let mut block = vec![peaks(gate(BUF, &[0]), [65_535, 0]); 256];
        block[0] = input(15);
        prints(&block.concat(), "exact 16711425 16711425 0 1\nlh\n");
    }

    /// 200 splits are not enough for this many pairs of BUF and NOT, of which one rises at a time.
    #[test]
    fn spent() {
        let mut block = vec![input(15); 16];
        for net in 0..16 {
            block.push(peaks(gate(BUF, &[net]), [10, 0]));
            block.push(peaks(gate(NOT, &[net]), [10, 0]));
        }
        let file = block.concat();
        let text = expected(&file);
        assert!(text.starts_with("spent "), "{text}");
        prints(&file, &text);
    }
}

mod refusals {
    use super::*;

    #[test]
    fn of_no_record() {
        prints(&[], "refused 3 0\n");
        prints(&gate(BUF, &[0]), "refused 3 0\n");
    }

    #[test]
    fn of_a_ragged_length() {
        for length in [1, 19, 21, 59, MOST_BYTES - 1, MOST_BYTES - 19] {
            prints(&fan(256)[..length], "refused 1 0\n");
        }
    }

    /// A 5,121st byte gives refusal 2 before any other check, and so do more.
    #[test]
    fn of_too_many_bytes() {
        prints(&fan(256), "exact 0 0 0 1\nlh\n");
        let longer = fan(1025);
        for length in [MOST_BYTES + 1, MOST_BYTES + 20, 20 * 1024, 20 * 1025] {
            prints(&longer[..length], "refused 2 0\n");
            // The first kind is 0, which would be refusal 3.
            prints(&vec![0; length], "refused 2 0\n");
        }
        prints(&vec![1; 1 << 20], "refused 2 0\n");
    }

    #[test]
    fn of_records() {
        let with = |byte: usize, value| {
            let mut block = [input(15), input(9), gate(AND, &[0, 1]), gate(NOT, &[2])];
            block[2][byte] = value;
            block.concat()
        };
        prints(&with(0, 10), "refused 4 2\n");
        prints(&with(3, 5), "refused 6 2\n");
        prints(&with(19, 1), "refused 7 2\n");
        prints(&with(6, 2), "refused 8 2\n");
        prints(&with(1, 16), "refused 9 2\n");
        prints(
            &[input(15), gate(BUF, &[0]), input(15)].concat(),
            "refused 5 2\n",
        );
        let mut chain = vec![input(15)];
        for pin in 0..255 {
            chain.push(gate(BUF, &[pin]));
        }
        chain[255][2] = 2;
        prints(&chain.concat(), "refused 10 255\n");
    }
}

/// The end that sends these bytes, open, and the end at which they are received.
fn sent(bytes: &[u8]) -> (UnixStream, UnixStream) {
    let (mut sender, receiver) = UnixStream::pair().expect("two ends");
    sender.write_all(bytes).expect("sent");
    (sender, receiver)
}

/// A standard input of these bytes.
fn ended_after(bytes: &[u8]) -> OwnedFd {
    let (_, receiver) = sent(bytes);
    receiver.into()
}

/// A standard input of these bytes that fails when it is read on, since it would block as long as the
/// sender, which comes first, is open.
fn blocked_after(bytes: &[u8]) -> (UnixStream, OwnedFd) {
    let (sender, receiver) = sent(bytes);
    receiver.set_nonblocking(true).expect("set");
    (sender, receiver.into())
}

/// A shell that runs a script in which `$0` is the program.
fn shell(script: &str) -> Command {
    let mut command = Command::new("sh");
    command.arg("-c").arg(script).arg(program());
    command
}

/// Where standard input cannot be read, there is no answer: neither to what was read before, nor to nothing.
mod unread {
    use super::*;

    #[track_caller]
    fn says_so(child: Child) {
        let message = "estimate: standard input cannot be read; no answer\n";
        assert_eq!(written(child), ["", message]);
    }

    /// Before the first byte, within a record, after records that would be a block, and where one byte
    /// more would be refused.
    #[test]
    fn where_it_would_block() {
        for length in [0, 20, 30, 59, 60] {
            let (_sender, input) = blocked_after(&BLOCK_S[..length]);
            says_so(start_on(input));
        }
        let (_sender, input) = blocked_after(&fan(256));
        says_so(start_on(input));
    }

    #[test]
    fn where_it_is_a_directory() {
        let folder = File::open(env!("CARGO_MANIFEST_DIR")).expect("opened");
        says_so(start_on(folder));
    }

    #[test]
    fn where_it_is_closed() {
        let mut closed = shell(r#"exec "$0" <&-"#);
        says_so(start(&mut closed, Stdio::null(), Stdio::piped()));
    }
}

/// Where the answer cannot be written, the program says so once, whatever the answer is.
mod unwritten {
    use super::*;

    #[track_caller]
    fn says_so(child: Child) {
        let message = "estimate: the answer cannot be written\n";
        assert_eq!(written(child), ["", message]);
    }

    /// Standard inputs whose answers are an accepted search, a refusal and the refusal of too many bytes.
    fn inputs() -> [OwnedFd; 3] {
        [BLOCK_S, &BLOCK_S[..30], &fan(257)].map(ended_after)
    }

    #[test]
    fn on_a_full_disk() {
        for input in inputs() {
            let full = File::options().write(true).open("/dev/full");
            let output = full.expect("a full disk");
            says_so(start(&mut Command::new(program()), input, output));
        }
    }

    #[test]
    fn where_standard_output_is_closed() {
        for input in inputs() {
            let mut closed = shell(r#"exec "$0" >&-"#);
            says_so(start(&mut closed, input, Stdio::null()));
        }
    }

    /// The file may have 512 bytes, which leaves room for the first word of the answer.
    #[test]
    fn where_there_is_no_room_for_the_whole() {
        let path = Path::new(env!("CARGO_TARGET_TMPDIR")).join("nearly_full");
        fs::write(&path, [b'-'; 507]).expect("written");
        let output = File::options().append(true).open(&path).expect("opened");
        let mut limited = shell(r#"ulimit -f 1 && trap '' XFSZ && exec "$0""#);
        says_so(start(&mut limited, ended_after(BLOCK_S), output));
        let text = fs::read_to_string(&path).expect("read");
        assert_eq!(text.trim_start_matches('-'), "exact");
    }
}

/// Where there is an answer, nothing is written on standard error.
#[test]
fn nothing_is_said_beside_an_answer() {
    let answers = [
        (60, "exact 10 10 1 4\nlh\n"),
        (20, "exact 0 0 0 1\nlh\n"),
        (30, "refused 1 0\n"),
        (0, "refused 3 0\n"),
    ];
    for (length, answer) in answers {
        let child = start_on(ended_after(&BLOCK_S[..length]));
        assert_eq!(written(child), [answer, ""]);
    }
}

/// The program does not wait for the end of a standard input of which 5,121 bytes are in, nor for more bytes.
mod without_an_end {
    use super::*;

    #[track_caller]
    fn is_refused(child: Child) {
        assert_eq!(written(child), ["refused 2 0\n", ""]);
    }

    #[test]
    fn a_pipe_that_stays_open() {
        let mut child = start_on(Stdio::piped());
        let mut stdin = child.stdin.take().expect("a pipe");
        let bytes = &fan(257)[..MOST_BYTES + 1];
        stdin.write_all(bytes).expect("written");
        is_refused(child);
    }

    #[test]
    fn what_would_block() {
        let (_sender, input) = blocked_after(&fan(257)[..MOST_BYTES + 1]);
        is_refused(start_on(input));
    }

    #[test]
    fn a_device() {
        is_refused(start_on(File::open("/dev/zero").expect("opened")));
    }
}

/// Standard input may come in pieces of any length, with pauses between them.
#[test]
fn pieces() {
    let in_pieces = |file: &[u8], length| {
        let pieces = file.chunks(length);
        printed(pieces.inspect(|_| thread::sleep(Duration::from_millis(2))))
    };
    let file = include_bytes!("../../../examples/block_f.blk");
    for length in [1, 7, 20, 79] {
        assert_eq!(in_pieces(file, length), "exact 56 56 1 4\nlh lh\n");
    }
    for length in [999, MOST_BYTES - 1] {
        assert_eq!(in_pieces(&fan(256), length), "exact 0 0 0 1\nlh\n");
        assert_eq!(in_pieces(&fan(257), length), "refused 2 0\n");
    }
}

/// Random blocks, of which some are damaged, against the second implementation.
#[test]
fn random_blocks() {
    let mut random = Random::new(10);
    let mut reached = [0; 3];
    for turn in 0..120 {
        let mut file = random_block(&mut random).concat();
        while random.below(5) == 0 {
            damage(&mut random, &mut file);
        }
        let expected = expected(&file);
        assert_eq!(printed([&file[..]]), expected, "block {turn}");
        let words = ["exact", "spent", "refused"];
        let word = words.iter().position(|word| expected.starts_with(word));
        reached[word.expect("an answer at ratio 1,000")] += 1;
    }
    println!("exact, spent, refused: {reached:?}");
    assert!(
        reached.iter().all(|&times| times >= 5),
        "reached too seldom: {reached:?}"
    );
}

/// Mostly few inputs and gates, sometimes as many records as the program takes, and sometimes more
/// patterns than 200 splits settle.
fn random_block(random: &mut Random) -> Vec<Record> {
    let few = 1 + random.below(5);
    let (inputs, gates) = match random.below(10) {
        0 => (few, 256 - few),
        1 | 2 => (16, 10 + random.below(20)),
        _ => (few, random.below(40)),
    };
    let shape = Shape {
        inputs,
        gates,
        reach: random.pick(&[4, 16, 1024]),
        delay: random.pick(&[1, 3, 6]),
        slope: random.pick(&[1, 4, 20]),
    };
    let mut block = shape.block(random);
    if inputs == 16 {
        block[..inputs].fill(input(15));
    }
    block
}
