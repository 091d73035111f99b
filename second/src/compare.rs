//! The comparer: the same frames to another program and to this one.

use std::io::{self, Read, Write};
use std::path::PathBuf;
use std::process::{Child, Command, ExitStatus, Stdio};
use std::thread;

use crate::answers;
use crate::bytes::{self, hex};
use crate::cases::streams::{streams, Stream};
use crate::cases::{deal, Case, Deck, Plan};
use crate::coverage::Coverage;
use crate::frames::{Answer, Request};

/// A child takes at most this many frames, and about this many bytes.
const MOST_FRAMES: usize = 500;
const MOST_BYTES: usize = 2_000_000;
/// So many differences are shown; the rest are counted.
const MOST_SHOWN: u64 = 5;

/// What the other program did with one input.
struct Run {
    output: Vec<u8>,
    status: ExitStatus,
}

/// Gives the input to the program, reading its output all the while.
fn run_child(program: &[String], input: Vec<u8>) -> io::Result<Run> {
    let mut command = Command::new(&program[0]);
    command.args(&program[1..]);
    let mut child = command
        .stdin(Stdio::piped())
        .stdout(Stdio::piped())
        .spawn()?;
    let writer = write_from_thread(&mut child, input);
    let mut output = Vec::new();
    let mut stdout = child.stdout.take().expect("the output is piped");
    stdout.read_to_end(&mut output)?;
    let status = child.wait()?;
    let _ = writer.join();
    Ok(Run { output, status })
}

/// A program that ends early closes its input; that is no error here.
fn write_from_thread(child: &mut Child, input: Vec<u8>) -> thread::JoinHandle<()> {
    let mut stdin = child.stdin.take().expect("the input is piped");
    thread::spawn(move || {
        let _ = stdin.write_all(&input);
    })
}

/// A comparison that is under way.
struct Comparison<'a> {
    program: &'a [String],
    seed: u64,
    first: bool,
    batch: Vec<Case>,
    frames: Vec<u8>,
    number: u64,
    passed: u64,
    failed: u64,
    shown: u64,
    coverage: Coverage,
    broken: Option<io::Error>,
}

/// How a comparison ended.
pub struct Outcome {
    pub passed: u64,
    pub failed: u64,
}

/// Compares every call and every stream of the plan, and prints what differs.
pub fn compare(plan: &Plan, program: &[String]) -> io::Result<Outcome> {
    let mut comparison = Comparison {
        program,
        seed: plan.seed,
        first: plan.first,
        batch: Vec::new(),
        frames: Vec::new(),
        number: 0,
        passed: 0,
        failed: 0,
        shown: 0,
        coverage: Coverage::default(),
        broken: None,
    };
    deal(plan, &mut Deck::new(&mut |case| comparison.take(case)));
    comparison.run_batch();
    comparison.streams();
    comparison.conclude();
    match comparison.broken {
        Some(error) => Err(error),
        None => Ok(Outcome {
            passed: comparison.passed,
            failed: comparison.failed,
        }),
    }
}

impl Comparison<'_> {
    /// Nothing more is to be run.
    fn stopped(&self) -> bool {
        self.broken.is_some() || self.first && self.failed > 0
    }

    /// Takes a call into the batch, and runs the batch when it is full.
    /// Answers whether more are wanted.
    fn take(&mut self, case: Case) -> bool {
        self.frames.extend(case.request.frame());
        self.batch.push(case);
        if self.batch.len() >= MOST_FRAMES || self.frames.len() >= MOST_BYTES {
            self.run_batch();
        }
        !self.stopped()
    }

    fn run_batch(&mut self) {
        if self.batch.is_empty() || self.stopped() {
            return;
        }
        let batch = std::mem::take(&mut self.batch);
        let frames = std::mem::take(&mut self.frames);
        let program = self.program.to_vec();
        let other = thread::spawn(move || run_child(&program, frames));
        let own: Vec<Answer> = batch.iter().map(own_answer).collect();
        match other.join().expect("the reader does not panic") {
            Ok(run) => self.compare_batch(&batch, &own, &run),
            Err(error) => self.broken = Some(error),
        }
    }

    fn compare_batch(&mut self, batch: &[Case], own: &[Answer], run: &Run) {
        let mut rest = &run.output[..];
        for (case, own) in batch.iter().zip(own) {
            self.number += 1;
            self.coverage.note(case.family, &case.request, own);
            let given = take_answer(&mut rest);
            let stated = case.stated.as_ref().map_or(true, |stated| stated == own);
            match given == Some(&own.frame()[..]) && stated {
                true => self.passed += 1,
                false => self.differs(case, own, given, stated),
            }
        }
        if !rest.is_empty() || !run.status.success() {
            self.ends_badly(rest.len(), run.status);
        }
    }

    /// Answers that nobody asked for, or a status other than 0.
    fn ends_badly(&mut self, left: usize, status: ExitStatus) {
        self.failed += 1;
        self.shown += 1;
        if self.shown <= MOST_SHOWN {
            let number = self.number;
            println!("the run up to case {number}: {left} bytes left over, {status}");
        }
    }

    fn differs(&mut self, case: &Case, own: &Answer, given: Option<&[u8]>, stated: bool) {
        self.failed += 1;
        self.shown += 1;
        if self.shown > MOST_SHOWN {
            return;
        }
        let (number, seed) = (self.number, self.seed);
        println!("case {number} of seed {seed} differs ({})", case.family);
        println!("  call      {}", described(&case.request));
        if !stated {
            println!("  this program does not give the published answer");
        }
        print_both(own, given);
        keep(&format!("difference-{number}.frame"), &case.request.frame());
    }

    /// Inputs that end in a bad frame, each in a run of its own.
    fn streams(&mut self) {
        for (number, stream) in streams().into_iter().enumerate() {
            if self.stopped() {
                return;
            }
            let own = answers::run_on(&stream.input);
            match run_child(self.program, stream.input.clone()) {
                Err(error) => self.broken = Some(error),
                Ok(run) if run.output == own => self.passed += 1,
                Ok(run) => self.stream_differs(number, &stream, &own, &run.output),
            }
        }
    }

    fn stream_differs(&mut self, number: usize, stream: &Stream, own: &[u8], given: &[u8]) {
        self.failed += 1;
        println!("input \"{}\" differs", stream.name);
        println!("  this program writes {} bytes, {}", own.len(), tail(own));
        println!("  the other writes {} bytes, {}", given.len(), tail(given));
        keep(&format!("difference-input-{number}.frames"), &stream.input);
    }

    /// Prints the tables; an outcome that never came up is a failure.
    fn conclude(&mut self) {
        if self.stopped() {
            return;
        }
        if self.shown > MOST_SHOWN {
            println!("{} differences in all, {MOST_SHOWN} shown", self.shown);
        }
        for missing in self.coverage.missing() {
            self.failed += 1;
            println!("never came up: {missing}");
        }
        for unexpected in self.coverage.unexpected() {
            self.failed += 1;
            println!("should not come up: {unexpected}");
        }
        print!("{}", self.coverage.table());
        println!("families: {}", self.coverage.families());
        println!("{} calls, {} streams", self.number, streams().len());
    }
}

/// This program's answer, of the frame as it was sent.
fn own_answer(case: &Case) -> Answer {
    let frame = case.request.frame();
    let request = Request::read(&frame[4..]).expect("a frame that is dealt is well-formed");
    answers::answer(&request)
}

/// Takes one framed answer off the front; none where it is not whole.
fn take_answer<'a>(output: &mut &'a [u8]) -> Option<&'a [u8]> {
    let length = bytes::number(output.get(..4)?) as usize;
    let answer = output.get(..4 + length)?;
    *output = &output[4 + length..];
    Some(answer)
}

/// The call in one line.
fn described(request: &Request) -> String {
    let name = request.name();
    match request {
        Request::Digest { message } => format!("{name}, {} bytes", message.len()),
        Request::Match { time, readings, .. } | Request::Tag { time, readings } => {
            format!("{name}, time {time}, {} bytes", readings.len())
        }
        Request::Height { word } => format!("{name}, word {word}"),
        Request::Save { metadata } => format!("{name}, count {}", metadata.count),
        Request::Load { saved } => format!("{name}, {}", hex(saved)),
        Request::Check { image } => format!("{name}, buffer of {}", image.len()),
        Request::Prove {
            p,
            place,
            length,
            image,
        } => {
            let lent = image.len();
            format!("{name} {p}, place {place} of {length}, image buffer of {lent}")
        }
        Request::Apply { command, image } => {
            let (p, height, lent) = (command.p, command.height, image.len());
            format!("{name} {p}, height {height}, image buffer of {lent}")
        }
        Request::Gateway {
            held,
            command,
            first,
            second,
        } => {
            let (p, height, count) = (command.p, command.height, held.count);
            let (first, second) = (first.len(), second.len());
            format!("{name} {p}, height {height}, count {count}, proofs of {first} and {second}")
        }
        Request::ProveJoint(call) => format!("{name} {}", call.described()),
        Request::CheckJoint(call) => format!("{name} {}", call.described()),
        Request::File(call) => format!("{name} {}", call.described()),
        Request::FindPlace(call) => format!("{name} {}", call.described()),
    }
}

/// Both answers, field by field.
fn print_both(own: &Answer, given: Option<&[u8]>) {
    let given = match given.and_then(|frame| Answer::read(&frame[4..])) {
        Some(answer) => answer,
        None => return println!("  the other program gave no whole answer"),
    };
    println!("  field     this program | the other");
    for ((name, one), (_, two)) in fields(own).iter().zip(&fields(&given)) {
        let mark = if one == two { "" } else { "  <-- differs" };
        println!("  {name:<9} {one} | {two}{mark}");
    }
    let (one, two) = (&own.lent, &given.lent);
    let at = one.iter().zip(two).position(|(one, two)| one != two);
    if let Some(at) = at {
        let (one, two) = (part(one, at), part(two, at));
        println!("  lent from byte {at}: {one} | {two}");
    }
}

fn fields(answer: &Answer) -> [(&'static str, String); 10] {
    [
        ("refusal", answer.refusal.to_string()),
        ("which", answer.which.to_string()),
        ("tag", hex(&answer.tag)),
        ("held", answer.metadata.count.to_string()),
        ("label", hex(&answer.metadata.label)),
        ("length", answer.length.to_string()),
        ("k", answer.k.to_string()),
        ("count", answer.count.to_string()),
        ("yes", answer.yes.to_string()),
        ("lent", format!("{} bytes", answer.lent.len())),
    ]
}

/// Up to 40 bytes from a place on.
fn part(bytes: &[u8], at: usize) -> String {
    hex(&bytes[at..bytes.len().min(at + 40)])
}

/// The end of an output, in hexadecimal.
fn tail(output: &[u8]) -> String {
    format!("ending {}", hex(&output[output.len().saturating_sub(16)..]))
}

/// Keeps the bytes that made a difference beside this program, in the build's
/// directory, and says where.
fn keep(name: &str, bytes: &[u8]) {
    match write_beside(name, bytes) {
        Ok(path) => println!("  kept in {}", path.display()),
        Err(error) => println!("  could not be kept: {error}"),
    }
}

fn write_beside(name: &str, bytes: &[u8]) -> io::Result<PathBuf> {
    let mut path = std::env::current_exe()?;
    path.set_file_name(name);
    std::fs::write(&path, bytes)?;
    Ok(path)
}
