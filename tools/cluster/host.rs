//! Hosts in Rust, to copy: four members as processes, each with its file and fsync, whose messages
//! go from one to the next inside this program. What a service adds is a network, a timer for each
//! view, and signatures: here each member believes what the others say, so nothing is tested.
//!
//! rustc -O host.rs && ./host PROGRAM FOLDER BLOCKS BYTES
use std::collections::VecDeque;
use std::fs::{create_dir_all, File, OpenOptions};
use std::io::{BufRead, BufReader, Error, Read, Result, Write};
use std::os::unix::fs::FileExt;
use std::process::{Child, ChildStdin, ChildStdout, Command, Stdio};
use std::str::FromStr;
use std::time::Instant;

const MEMBERS: usize = 4;
const HEADER: &str = "cluster 4 8";

fn error(text: &str) -> Error {
    Error::other(text.to_string())
}

/// What a field reads as.
fn field<T: FromStr>(text: Option<&str>) -> Result<T> {
    text.and_then(|text| text.parse().ok()).ok_or_else(|| error("a field is cut"))
}

fn hex_of(bytes: &[u8]) -> String {
    if bytes.is_empty() {
        return "-".to_string();
    }
    let digit = |half: u8| char::from(b"0123456789abcdef"[usize::from(half)]);
    bytes.iter().flat_map(|byte| [digit(byte >> 4), digit(byte & 15)]).collect()
}

fn bytes_of(hex: &str) -> Result<Vec<u8>> {
    if hex == "-" {
        return Ok(Vec::new());
    }
    let digit = |d: u8| (d as char).to_digit(16).ok_or_else(|| error("no digit"));
    let pairs = hex.as_bytes().chunks(2);
    pairs.map(|pair| Ok((digit(pair[0])? << 4 | digit(pair[pair.len() - 1])?) as u8)).collect()
}

/// What an answer says behind its calls.
enum Said {
    /// To whom, none for all; and the rest of the line: a message, its vote, who signed it.
    Send(Option<usize>, String),
    /// A block that is final, by its height; a service keeps its payload.
    Hand(u64),
    /// The member stands in another view, which this one leads.
    View(usize),
}

/// A member's process, with its file.
struct Member {
    child: Child,
    input: ChildStdin,
    output: BufReader<ChildStdout>,
    file: File,
}

impl Member {
    fn new(program: &str, number: usize, folder: &str) -> Result<Member> {
        let mut command = Command::new(program);
        command.arg(number.to_string()).stdin(Stdio::piped()).stdout(Stdio::piped());
        let mut child = command.spawn()?;
        let input = child.stdin.take().ok_or_else(|| error("no input"))?;
        let output = child.stdout.take().ok_or_else(|| error("no output"))?;
        let output = BufReader::with_capacity(1 << 20, output);
        let mut open = OpenOptions::new();
        open.read(true).write(true).create(true);
        let file = open.open(format!("{folder}/log.{number}"))?;
        File::open(folder)?.sync_all()?;
        Ok(Member { child, input, output, file })
    }

    /// Starts on what the file holds.
    fn start(&mut self) -> Result<Vec<Said>> {
        self.ask(HEADER)?;
        let mut held = Vec::new();
        self.file.read_to_end(&mut held)?;
        for piece in held.chunks(1 << 20) {
            self.ask(&format!("disk {}", hex_of(piece)))?;
        }
        self.turn("start")
    }

    /// Says a line, and answers the lines of the answer, but for `ok`.
    fn ask(&mut self, line: &str) -> Result<Vec<String>> {
        self.input.write_all(line.as_bytes())?;
        self.input.write_all(b"\n")?;
        let mut rows = Vec::new();
        loop {
            let mut row = String::new();
            self.output.read_line(&mut row)?;
            match row.strip_suffix('\n') {
                None => return Err(error("the member has ended")),
                Some("ok") => return Ok(rows),
                Some(row) if row.starts_with("no ") => return Err(error(row)),
                Some(row) => rows.push(row.to_string()),
            }
        }
    }

    /// Says a line, makes the calls of the answer, in their order, and answers what it says then.
    fn turn(&mut self, line: &str) -> Result<Vec<Said>> {
        let mut said = Vec::new();
        for row in self.ask(line)? {
            let (word, rest) = row.split_once(' ').unwrap_or((&row, ""));
            match word {
                "write" => self.write(rest)?,
                "sync" => self.file.sync_data()?,
                "send" => {
                    let (to, tail) = rest.split_once(' ').ok_or_else(|| error("no message"))?;
                    said.push(Said::Send(to.parse().ok(), tail.to_string()));
                }
                "hand" => said.push(Said::Hand(field(rest.split(' ').next())?)),
                "view" => said.push(Said::View(field(rest.rsplit(' ').next())?)),
                _ => {}
            }
        }
        Ok(said)
    }

    fn write(&mut self, fields: &str) -> Result<()> {
        let (place, data) = fields.split_once(' ').ok_or_else(|| error("no bytes"))?;
        self.file.write_all_at(&bytes_of(data)?, field(Some(place))?)
    }
}

/// All members, the lines that wait for them, who leads, and the greatest height of each.
struct Cluster {
    members: Vec<Member>,
    waiting: VecDeque<(usize, String)>,
    leader: usize,
    tops: Vec<u64>,
}

impl Cluster {
    /// Does what a member said: all that it sent is safe on its file by now.
    fn take(&mut self, number: usize, said: Vec<Said>) {
        for one in said {
            match one {
                Said::Send(to, tail) => {
                    for one in (0..MEMBERS).filter(|one| to.is_none_or(|to| to == *one)) {
                        self.waiting.push_back((one, format!("deliver {tail}")));
                    }
                }
                Said::Hand(height) => {
                    self.tops[number] = self.tops[number].max(height);
                    self.waiting.push_back((number, "ack".to_string()));
                }
                Said::View(leader) => self.leader = leader,
            }
        }
    }

    fn drain(&mut self) -> Result<()> {
        while let Some((number, line)) = self.waiting.pop_front() {
            let said = self.members[number].turn(&line)?;
            self.take(number, said);
        }
        Ok(())
    }

    fn run(&mut self, blocks: usize, size: usize) -> Result<()> {
        for number in 0..MEMBERS {
            let said = self.members[number].start()?;
            self.take(number, said);
        }
        self.drain()?;
        for block in 0..blocks {
            let payload: Vec<u8> = (0..size).map(|at| (at * 7 + block * 13) as u8).collect();
            let leader = self.leader;
            let said = self.members[leader].turn(&format!("propose {}", hex_of(&payload)))?;
            self.take(leader, said);
            self.drain()?;
        }
        Ok(())
    }
}

fn main() -> Result<()> {
    let words: Vec<String> = std::env::args().skip(1).collect();
    let [program, folder, blocks, bytes] = words.as_slice() else {
        return Err(error("usage: host PROGRAM FOLDER BLOCKS BYTES"));
    };
    create_dir_all(folder)?;
    let members = (0..MEMBERS).map(|one| Member::new(program, one, folder)).collect::<Result<_>>()?;
    let (waiting, tops) = (VecDeque::new(), vec![0; MEMBERS]);
    let mut cluster = Cluster { members, waiting, leader: 0, tops };
    let start = Instant::now();
    cluster.run(field(Some(blocks))?, field(Some(bytes))?)?;
    println!("heights {:?} in {:.2} s", cluster.tops, start.elapsed().as_secs_f64());
    for Member { mut child, input, .. } in cluster.members {
        drop(input);
        child.wait()?;
    }
    Ok(())
}
