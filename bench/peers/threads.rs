//! The network of a script as threads of the system: one for each task, and a channel of the script's room for each
//! ring. It reads a script of `count`, `number`, `upper` and `tally` on standard input, and prints its report.
use std::collections::HashMap;
use std::io::{Read, Write};
use std::sync::mpsc::{sync_channel, Receiver, SyncSender};
use std::thread;

type Line = Vec<u8>;

/// A task, with the ends of the channels that it takes from and puts out on, if it has such.
struct Task {
    name: String,
    kind: String,
    count: u64,
    from: Option<Receiver<Line>>,
    out: Option<SyncSender<Line>>,
    kept: Vec<Line>,
}

impl Task {
    fn put(&mut self, line: Line) {
        match &self.out {
            Some(out) => out.send(line).expect("a reader"),
            None => self.kept.push(line),
        }
    }

    fn run(mut self) -> Task {
        let from = self.from.take();
        let lines = from.iter().flat_map(|ring| ring.iter());
        match self.kind.as_str() {
            "count" => (1..=self.count).for_each(|i| self.put(i.to_string().into_bytes())),
            "number" => {
                for (i, line) in lines.enumerate() {
                    let mut numbered = format!("{} ", i + 1).into_bytes();
                    numbered.extend_from_slice(&line);
                    self.put(numbered);
                }
            }
            "upper" => {
                for mut line in lines {
                    line.make_ascii_uppercase();
                    self.put(line);
                }
            }
            _ => {
                let count = lines.count();
                self.put(count.to_string().into_bytes());
            }
        }
        // The reader sees the end.
        self.out = None;
        self
    }
}

/// The tasks of a script, joined by channels.
fn read(text: &str) -> Vec<Task> {
    let mut tasks: Vec<Task> = Vec::new();
    let mut places = HashMap::new();
    let mut room = 4;
    for line in text.lines() {
        let words: Vec<&str> = line.split_whitespace().collect();
        match words[..] {
            ["room", items] => room = items.parse().expect("a number"),
            ["task", name, kind, ..] => {
                let (mut count, mut from) = (0, None);
                if kind == "count" {
                    count = words[3].parse().expect("a number");
                } else {
                    let (out, ring) = sync_channel(room);
                    let writer: usize = places[words[4]];
                    tasks[writer].out = Some(out);
                    from = Some(ring);
                }
                places.insert(words[1], tasks.len());
                tasks.push(Task { name: name.into(), kind: kind.into(), count, from, out: None, kept: Vec::new() });
            }
            _ => {}
        }
    }
    tasks
}

fn main() {
    let mut text = String::new();
    std::io::stdin().read_to_string(&mut text).expect("a script");
    let threads: Vec<_> = read(&text).into_iter().map(|task| thread::spawn(|| task.run())).collect();
    let mut report = Vec::new();
    for thread in threads {
        let task = thread.join().expect("a task");
        for line in &task.kept {
            report.extend_from_slice(format!("{}: ", task.name).as_bytes());
            report.extend_from_slice(line);
            report.push(b'\n');
        }
    }
    std::io::stdout().write_all(&report).expect("an output");
}
