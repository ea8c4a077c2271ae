//! An election on a ring of threads, recorded. `Recorder` is the first half: copy it.
//!
//!     rustc --edition 2021 ring.rs && ./ring 4 7 DIR
//! runs 4 nodes with draws from seed 7; each link is a channel. Node I writes DIR/I.log, as `ira` reads it, and who
//! leads DIR/leaders.

use std::io::{self, Write};
use std::sync::mpsc::{Receiver, Sender, channel};
use std::{env, fs::File, path::{Path, PathBuf}, process, thread};

/// The log of one node. One thread calls it, each time after the step that the record tells of. A record is handed
/// to the system at once, so a node that is killed leaves all it did, without the end line.
pub struct Recorder {
    file: File,
    records: u32,
    place: u32,
    leaders: PathBuf,
}

impl Recorder {
    pub fn new(folder: &Path, nodes: u32, place: u32, initiator: bool) -> io::Result<Recorder> {
        let mut file = File::create(folder.join(format!("{place}.log")))?;
        let start = if initiator { "initiator" } else { "passive" };
        write!(file, "irlog 1\nnodes {nodes}\nplace {place}\nstart {start}\n")?;
        Ok(Recorder { file, records: 0, place, leaders: folder.join("leaders") })
    }

    pub fn drew(&mut self, id: u32) -> io::Result<()> {
        self.record(format!("draw {id}\n"))
    }

    /// `word` is `send` once the message is on the link, `recv` once it is taken off.
    pub fn passed(&mut self, word: &str, m: Message) -> io::Result<()> {
        let bit = if m.dirty { "dirty" } else { "clean" };
        self.record(format!("{word} {} {} {} {bit}\n", m.round, m.id, m.hop))
    }

    /// Once the node takes itself for the leader: its place comes into a file for all nodes, which begins empty.
    pub fn leads(&mut self) -> io::Result<()> {
        let mut leaders = File::options().append(true).create(true).open(&self.leaders)?;
        leaders.write_all(format!("{}\n", self.place).as_bytes())
    }

    /// Writes the end line, without which the log counts as cut off.
    pub fn close(mut self) -> io::Result<()> {
        writeln!(self.file, "end {}", self.records)
    }

    fn record(&mut self, line: String) -> io::Result<()> {
        self.records += 1;
        self.file.write_all(line.as_bytes())
    }
}

#[derive(Clone, Copy)]
pub struct Message {
    round: u32,
    id: u32,
    hop: u32,
    dirty: bool,
}

struct Node {
    nodes: u32,
    draws: u64,
    source: Receiver<Message>,
    target: Sender<Message>,
    log: Recorder,
}

impl Node {
    /// The election. A link that is closed says that its writer has ended.
    fn run(mut self, initiator: bool) -> io::Result<()> {
        let mut own = if initiator { Some(self.choose(1)?) } else { None };
        while let Ok(message) = self.source.recv() {
            self.log.passed("recv", message)?;
            let pair = (message.round, message.id);
            match own {
                Some(mine) if pair < mine => {}
                Some(mine) if pair == mine && message.hop == self.nodes && message.dirty => {
                    own = Some(self.choose(message.round + 1)?);
                }
                Some(mine) if pair == mine && message.hop == self.nodes => {
                    self.log.leads()?;
                    break;
                }
                _ => {
                    let dirty = message.dirty || own == Some(pair);
                    own = own.filter(|&mine| mine == pair);
                    self.send(Message { hop: message.hop + 1, dirty, ..message })?;
                }
            }
        }
        self.log.close()
    }

    fn choose(&mut self, round: u32) -> io::Result<(u32, u32)> {
        self.draws = self.draws.wrapping_mul(6364136223846793005).wrapping_add(1);
        let id = (self.draws >> 33) as u32 % self.nodes + 1;
        self.log.drew(id)?;
        self.send(Message { round, id, hop: 1, dirty: false })?;
        Ok((round, id))
    }

    fn send(&mut self, message: Message) -> io::Result<()> {
        self.target.send(message).map_err(io::Error::other)?;
        self.log.passed("send", message)
    }
}

fn main() -> io::Result<()> {
    let words: Vec<String> = env::args().collect();
    let number = |i: usize| words.get(i).and_then(|word| word.parse::<u32>().ok());
    let (Some(nodes @ 2..=64), Some(seed), Some(folder)) = (number(1), number(2), words.get(3)) else {
        eprintln!("ring NODES SEED DIR, 2 to 64 nodes");
        process::exit(2);
    };
    File::create(Path::new(folder).join("leaders"))?;
    // Link I leads from node I to node I+1, the last one to node 0.
    let (targets, mut sources): (Vec<_>, Vec<_>) = (0..nodes).map(|_| channel()).unzip();
    sources.rotate_right(1);
    let mut threads = Vec::new();
    for (place, (source, target)) in (0..).zip(sources.into_iter().zip(targets)) {
        let log = Recorder::new(Path::new(folder), nodes, place, true)?;
        let draws = (u64::from(seed) << 32) + u64::from(place);
        threads.push(thread::spawn(move || Node { nodes, draws, source, target, log }.run(true)));
    }
    for thread in threads {
        thread.join().expect("a node ends")?;
    }
    Ok(())
}
