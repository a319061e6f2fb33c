// An iSCSI initiator for benchmarks and for tests under load: fast, and no more than they need. `rustc -O` builds it; the
// scripts beside it do so.
//
// client HOST:PORT[,HOST:PORT..] TARGET UNIT read|write|fua|flush SIZE DEPTH SESSIONS SECONDS|COUNTx [REGION [FIRST]]
//     commands of SIZE bytes at random places of the unit's first REGION bytes, DEPTH of them open in each of the SESSIONS,
//     whose names are counted from FIRST on; prints how many ended a second. `fua` writes with FUA; `flush` has a SYNCHRONIZE
//     CACHE behind each write, and nothing else open: it counts both as one. With COUNTx in place of a time each session sends
//     so many commands, and waits for all answers. With CLIENT_WORST in the environment it prints behind the rate how many
//     milliseconds a command took at most
// client HOST:PORT[,HOST:PORT..] TARGET UNIT[,UNIT..] load SIZE DEPTH SESSIONS SECONDS
//     each session writes numbered blocks to places of its own and reads them back, all the time; when the time is over, or
//     the connections break, it logs in again, for a minute, and reads all: each block has the last write of it that was
//     answered, or one that was sent after that
//
// Sessions go to the addresses in turn, and to the units in turn.

use std::io::{self, Read, Write};
use std::net::TcpStream;
use std::sync::atomic::{AtomicBool, AtomicU64, Ordering};
use std::sync::{Arc, Barrier};
use std::time::{Duration, Instant};

const BLOCK: usize = 512;

fn be32(bytes: &[u8]) -> u32 {
    u32::from_be_bytes(bytes[..4].try_into().unwrap())
}

fn put32(header: &mut [u8; 48], at: usize, value: u32) {
    header[at..at + 4].copy_from_slice(&value.to_be_bytes());
}

fn broken(text: &str) -> io::Error {
    io::Error::new(io::ErrorKind::Other, text.to_string())
}

/// A PDU of the target: its header, and where its data lies in the buffer.
struct Pdu {
    header: [u8; 48],
    data: std::ops::Range<usize>,
}

struct Session {
    socket: TcpStream,
    input: Vec<u8>,
    from: usize,
    to: usize,
    output: Vec<u8>,
    cmd_sn: u32,
    stat_sn: u32,
    max_cmd_sn: u32,
    segment: usize,
    first_burst: usize,
    // a command whose end came with its last data
    ended: Option<(u32, u8)>,
    // whether writes go out with FUA
    is_fua: bool,
}

/// What an answer means to whoever sent the command.
enum Event {
    Done { tag: u32, status: u8, sense: [u8; 3] },
    Data { tag: u32, at: usize, data: std::ops::Range<usize> },
    Wants { tag: u32, ttt: u32, at: usize, len: usize },
}

impl Session {
    fn login(address: &str, target: &str, number: u32) -> io::Result<Session> {
        let socket = TcpStream::connect(address)?;
        socket.set_nodelay(true)?;
        socket.set_read_timeout(Some(Duration::from_secs(60)))?;
        let mut session = Session {
            socket,
            input: vec![0; 1 << 20],
            from: 0,
            to: 0,
            output: Vec::with_capacity(1 << 20),
            cmd_sn: 1,
            stat_sn: 0,
            max_cmd_sn: 1,
            segment: 8192,
            first_burst: 65536,
            ended: None,
            is_fua: false,
        };
        let first = format!(
            "InitiatorName=iqn.2000-01.test:load{number}\0TargetName={target}\0SessionType=Normal\0AuthMethod=None\0"
        );
        session.login_step(0x81, number, first.as_bytes())?;
        // a key that is not here a target may offer by itself, and wait for its answer
        let second = "HeaderDigest=None\0DataDigest=None\0InitialR2T=Yes\0ImmediateData=Yes\0MaxBurstLength=262144\0\
            FirstBurstLength=65536\0MaxRecvDataSegmentLength=262144\0MaxOutstandingR2T=1\0MaxConnections=1\0\
            DefaultTime2Wait=2\0DefaultTime2Retain=0\0DataPDUInOrder=Yes\0DataSequenceInOrder=Yes\0ErrorRecoveryLevel=0\0";
        let answer = session.login_step(0x87, number, second.as_bytes())?;
        for pair in answer.split('\0') {
            if let Some((key, value)) = pair.split_once('=') {
                match key {
                    "MaxRecvDataSegmentLength" => session.segment = value.parse().unwrap_or(8192),
                    "FirstBurstLength" => session.first_burst = value.parse().unwrap_or(65536),
                    _ => (),
                }
            }
        }
        Ok(session)
    }

    fn login_step(&mut self, flags: u8, number: u32, text: &[u8]) -> io::Result<String> {
        let mut header = [0u8; 48];
        header[0] = 0x43;
        header[1] = flags;
        header[8] = 0x80;
        header[10..14].copy_from_slice(&number.to_be_bytes());
        put32(&mut header, 16, 1);
        put32(&mut header, 24, self.cmd_sn);
        put32(&mut header, 28, self.stat_sn);
        self.put(header, text);
        self.flush()?;
        let pdu = self.pdu()?;
        if pdu.header[0] & 0x3F != 0x23 || pdu.header[36] != 0 {
            return Err(broken("login refused"));
        }
        if pdu.header[1] & 0x80 == 0 {
            return Err(broken("the target wants more of a login"));
        }
        self.count(&pdu.header);
        Ok(String::from_utf8_lossy(&self.input[pdu.data]).into_owned())
    }

    fn count(&mut self, header: &[u8; 48]) {
        self.stat_sn = be32(&header[24..]).wrapping_add(1);
        self.max_cmd_sn = be32(&header[32..]);
    }

    fn put(&mut self, mut header: [u8; 48], data: &[u8]) {
        header[5..8].copy_from_slice(&(data.len() as u32).to_be_bytes()[1..]);
        self.output.extend_from_slice(&header);
        self.output.extend_from_slice(data);
        let pad = self.output.len().next_multiple_of(4);
        self.output.resize(pad, 0);
    }

    fn flush(&mut self) -> io::Result<()> {
        if !self.output.is_empty() {
            self.socket.write_all(&self.output)?;
            self.output.clear();
        }
        Ok(())
    }

    // Whether so many bytes lie in the buffer.
    fn has(&self, count: usize) -> bool {
        self.to - self.from >= count
    }

    // Reads until they do; what is to be sent goes out before.
    fn need(&mut self, count: usize) -> io::Result<()> {
        while !self.has(count) {
            self.flush()?;
            if self.from > 0 && self.input.len() - self.from < count.max(65536) {
                self.input.copy_within(self.from..self.to, 0);
                self.to -= self.from;
                self.from = 0;
            }
            let count = self.socket.read(&mut self.input[self.to..])?;
            if count == 0 {
                return Err(broken("the target has closed the connection"));
            }
            self.to += count;
        }
        Ok(())
    }

    fn pdu(&mut self) -> io::Result<Pdu> {
        self.need(48)?;
        let header: [u8; 48] = self.input[self.from..self.from + 48].try_into().unwrap();
        let len = (be32(&header[4..]) & 0xFFFFFF) as usize;
        let whole = 48 + len.next_multiple_of(4);
        self.need(whole)?;
        let at = self.from + 48;
        self.from += whole;
        Ok(Pdu { header, data: at..at + len })
    }

    fn has_pdu(&self) -> bool {
        if !self.has(48) {
            return false;
        }
        let len = be32(&self.input[self.from + 4..]) & 0xFFFFFF;
        self.has(48 + (len as usize).next_multiple_of(4))
    }

    fn has_room(&self) -> bool {
        self.max_cmd_sn.wrapping_sub(self.cmd_sn) < 1 << 31
    }

    // Queues a READ (16), or a WRITE (16) with its immediate data.
    fn command(&mut self, unit: u8, tag: u32, lba: u64, blocks: usize, data: Option<&[u8]>) {
        let mut header = [0u8; 48];
        header[0] = 0x01;
        header[1] = if data.is_some() { 0xA1 } else { 0xC1 };
        header[9] = unit;
        put32(&mut header, 16, tag);
        put32(&mut header, 20, (blocks * BLOCK) as u32);
        put32(&mut header, 24, self.cmd_sn);
        put32(&mut header, 28, self.stat_sn);
        header[32] = if data.is_some() { 0x8A } else { 0x88 };
        header[33] = if data.is_some() && self.is_fua { 0x08 } else { 0 };
        header[34..42].copy_from_slice(&lba.to_be_bytes());
        put32(&mut header, 42, blocks as u32);
        self.cmd_sn = self.cmd_sn.wrapping_add(1);
        let data = data.unwrap_or(&[]);
        let first = data.len().min(self.first_burst).min(self.segment);
        self.put(header, &data[..first]);
    }

    // SYNCHRONIZE CACHE (16) of all blocks, to its end.
    fn synchronize(&mut self, unit: u8, tag: u32) -> io::Result<()> {
        let mut header = [0u8; 48];
        header[0] = 0x01;
        header[1] = 0x81;
        header[9] = unit;
        put32(&mut header, 16, tag);
        put32(&mut header, 24, self.cmd_sn);
        put32(&mut header, 28, self.stat_sn);
        header[32] = 0x91;
        self.cmd_sn = self.cmd_sn.wrapping_add(1);
        self.put(header, &[]);
        match self.event()? {
            Event::Done { status: 0, .. } => Ok(()),
            _ => Err(broken("SYNCHRONIZE CACHE is not GOOD")),
        }
    }

    fn ready(&mut self, unit: u8) -> io::Result<()> {
        let mut header = [0u8; 48];
        header[0] = 0x01;
        header[1] = 0x81;
        header[9] = unit;
        for _ in 0..16 {
            put32(&mut header, 16, 0x7FFF0000);
            put32(&mut header, 24, self.cmd_sn);
            put32(&mut header, 28, self.stat_sn);
            self.cmd_sn = self.cmd_sn.wrapping_add(1);
            self.put(header, &[]);
            if let Event::Done { status: 0, .. } = self.event()? {
                return Ok(());
            }
        }
        Err(broken("the unit does not become ready"))
    }

    // How many blocks the unit has, by READ CAPACITY (16).
    fn capacity(&mut self, unit: u8) -> io::Result<u64> {
        let mut header = [0u8; 48];
        header[0] = 0x01;
        header[1] = 0xC1;
        header[9] = unit;
        put32(&mut header, 16, 0x7FFF0001);
        put32(&mut header, 20, 32);
        put32(&mut header, 24, self.cmd_sn);
        put32(&mut header, 28, self.stat_sn);
        header[32] = 0x9E;
        header[33] = 0x10;
        header[45] = 32;
        self.cmd_sn = self.cmd_sn.wrapping_add(1);
        self.put(header, &[]);
        let mut blocks = 0;
        loop {
            match self.event()? {
                Event::Data { data, .. } => {
                    blocks = u64::from_be_bytes(self.input[data][..8].try_into().unwrap()) + 1;
                }
                Event::Done { status: 0, .. } if blocks > 0 => return Ok(blocks),
                _ => return Err(broken("no capacity")),
            }
        }
    }

    // Queues the data that an R2T asks for.
    fn wanted(&mut self, unit: u8, tag: u32, ttt: u32, mut at: usize, mut len: usize, data: &[u8]) {
        let mut number = 0;
        while len > 0 {
            let part = len.min(self.segment);
            let mut header = [0u8; 48];
            header[0] = 0x05;
            header[1] = if part == len { 0x80 } else { 0 };
            header[9] = unit;
            put32(&mut header, 16, tag);
            put32(&mut header, 20, ttt);
            put32(&mut header, 28, self.stat_sn);
            put32(&mut header, 36, number);
            put32(&mut header, 40, at as u32);
            self.put(header, &data[at..at + part]);
            at += part;
            len -= part;
            number += 1;
        }
    }

    /// The next answer that concerns a command.
    fn event(&mut self) -> io::Result<Event> {
        if let Some((tag, status)) = self.ended.take() {
            return Ok(Event::Done { tag, status, sense: [0; 3] });
        }
        loop {
            let pdu = self.pdu()?;
            let header = &pdu.header;
            let tag = be32(&header[16..]);
            match header[0] & 0x3F {
                0x25 => {
                    self.max_cmd_sn = be32(&header[32..]);
                    if header[1] & 1 != 0 {
                        self.stat_sn = be32(&header[24..]).wrapping_add(1);
                        self.ended = Some((tag, header[3]));
                    }
                    let at = be32(&header[40..]) as usize;
                    return Ok(Event::Data { tag, at, data: pdu.data });
                }
                0x21 => {
                    self.count(&pdu.header);
                    let data = &self.input[pdu.data];
                    let sense = if data.len() >= 16 { [data[4] & 15, data[14], data[15]] } else { [0; 3] };
                    return Ok(Event::Done { tag, status: pdu.header[3], sense });
                }
                0x31 => {
                    self.max_cmd_sn = be32(&header[32..]);
                    let ttt = be32(&header[20..]);
                    let (at, len) = (be32(&header[40..]) as usize, be32(&header[44..]) as usize);
                    return Ok(Event::Wants { tag, ttt, at, len });
                }
                0x20 => {
                    let ttt = be32(&header[20..]);
                    if ttt != u32::MAX {
                        let mut pong = [0u8; 48];
                        pong[0] = 0x40;
                        pong[1] = 0x80;
                        pong[8..16].copy_from_slice(&header[8..16]);
                        put32(&mut pong, 16, u32::MAX);
                        put32(&mut pong, 20, ttt);
                        put32(&mut pong, 24, self.cmd_sn);
                        put32(&mut pong, 28, self.stat_sn);
                        self.put(pong, &[]);
                    }
                }
                other => return Err(broken(&format!("a PDU with opcode {other:02x}"))),
            }
        }
    }
}

/// Numbers that look random, by xorshift.
struct Random(u64);

impl Random {
    fn below(&mut self, end: u64) -> u64 {
        self.0 ^= self.0 << 13;
        self.0 ^= self.0 >> 7;
        self.0 ^= self.0 << 17;
        self.0 % end
    }
}

/// What the words ask for.
#[derive(Clone)]
struct Plan {
    addresses: Vec<String>,
    target: String,
    units: Vec<u8>,
    work: String,
    size: usize,
    depth: usize,
    sessions: usize,
    time: Duration,
    // of each session at most
    count: u64,
    region: u64,
    first: usize,
    // whether it is told how long a command took at most
    tells_worst: bool,
}

impl Plan {
    fn login(&self, number: usize) -> io::Result<(Session, u8)> {
        let address = &self.addresses[number % self.addresses.len()];
        let unit = self.units[number / self.addresses.len() % self.units.len()];
        let mut session = Session::login(address, &self.target, (self.first + number) as u32)?;
        session.ready(unit)?;
        session.is_fua = self.work == "fua";
        Ok((session, unit))
    }
}

// One session of a benchmark. Answers how many commands ended while the clock ran, and how long one took at most, where that is told.
fn measure(plan: &Plan, number: usize, start: &Barrier, is_over: &AtomicBool) -> io::Result<(u64, Duration)> {
    let (mut session, unit) = plan.login(number)?;
    let blocks = plan.size / BLOCK;
    let places = session.capacity(unit)?.min(plan.region / BLOCK as u64) / blocks as u64;
    let mut random = Random(0x9E3779B97F4A7C15 ^ (number as u64 + 1));
    let data = vec![0x5A; plan.size];
    let is_write = plan.work != "read";
    let depth = if plan.work == "flush" { 1 } else { plan.depth };
    let (mut open, mut ended, mut tag) = (0, 0, 0);
    let (mut sent, mut worst) = (std::collections::HashMap::new(), Duration::ZERO);
    start.wait();
    while !is_over.load(Ordering::Relaxed) && ended < plan.count {
        while open < depth && session.has_room() && ended + (open as u64) < plan.count {
            let lba = random.below(places) * blocks as u64;
            session.command(unit, tag, lba, blocks, is_write.then_some(&data[..]));
            if plan.tells_worst {
                sent.insert(tag, Instant::now());
            }
            tag = (tag + 1) % 0x7FFF0000;
            open += 1;
        }
        loop {
            match session.event()? {
                Event::Done { tag, status: 0, .. } => {
                    open -= 1;
                    ended += 1;
                    worst = sent.remove(&tag).map_or(worst, |then| worst.max(then.elapsed()));
                }
                Event::Done { status, sense, .. } => {
                    return Err(broken(&format!("status {status:02x} sense {sense:02x?}")));
                }
                Event::Data { .. } => (),
                Event::Wants { tag, ttt, at, len } => session.wanted(unit, tag, ttt, at, len, &data),
            }
            if session.ended.is_none() && !session.has_pdu() {
                break;
            }
        }
        if plan.work == "flush" && open == 0 {
            session.synchronize(unit, tag)?;
        }
    }
    Ok((ended, worst))
}

fn benchmark(plan: &Plan) -> io::Result<()> {
    let start = Arc::new(Barrier::new(plan.sessions + 1));
    let is_over = Arc::new(AtomicBool::new(false));
    let workers: Vec<_> = (0..plan.sessions)
        .map(|number| {
            let (plan, start, is_over) = (plan.clone(), start.clone(), is_over.clone());
            std::thread::spawn(move || {
                let ended = measure(&plan, number, &start, &is_over);
                if let Err(e) = &ended {
                    eprintln!("session {number}: {e}");
                    std::process::exit(1);
                }
                ended.unwrap_or((0, Duration::ZERO))
            })
        })
        .collect();
    start.wait();
    let began = Instant::now();
    if plan.count == u64::MAX {
        std::thread::sleep(plan.time);
        is_over.store(true, Ordering::Relaxed);
    }
    let (mut ended, mut worst) = (0, Duration::ZERO);
    for worker in workers {
        let (count, longest) = worker.join().unwrap();
        ended += count;
        worst = worst.max(longest);
    }
    let rate = ended as f64 / began.elapsed().as_secs_f64();
    if plan.tells_worst {
        println!("{rate:.1} {:.3}", worst.as_secs_f64() * 1e3);
    } else {
        println!("{rate:.0}");
    }
    Ok(())
}

/// What a session of the load knows of a place of its own: the last write that was answered, and the last that was sent.
#[derive(Clone, Copy, Default)]
struct Place {
    answered: u64,
    sent: u64,
}

// A session's blocks with the number of their write, so that no two are alike.
fn filled(data: &mut [u8], session: usize, place: usize, write: u64) {
    for (at, word) in data.chunks_exact_mut(32).enumerate() {
        word[..8].copy_from_slice(&write.to_be_bytes());
        word[8..16].copy_from_slice(&(session as u64).to_be_bytes());
        word[16..24].copy_from_slice(&(place as u64).to_be_bytes());
        word[24..].copy_from_slice(&(at as u64).to_be_bytes());
    }
}

/// A command of the load that is open.
#[derive(Clone, Copy)]
struct Open {
    place: usize,
    // the number of a write, 0 for a read
    write: u64,
    // the last write of its place that was answered when it was sent
    least: u64,
}

/// A session of the load, with all that it knows of its places.
struct Worker {
    plan: Plan,
    number: usize,
    places: Vec<Place>,
    writes: u64,
    first: u64,
    random: Random,
    faults: u64,
    busy: u64,
}

impl Worker {
    // Whether a place's blocks may hold what they do: one write of it, whole, neither too old nor never sent.
    fn judge(&self, place: usize, data: &[u8], least: u64) -> bool {
        let write = u64::from_be_bytes(data[..8].try_into().unwrap());
        let mut wanted = vec![0; data.len()];
        filled(&mut wanted, self.number, place, write);
        write >= least && write <= self.places[place].sent && data == wanted
    }

    // Sends a command of a place: a write, or a read of one that has an answered write. Answers whether it did.
    fn begin(&mut self, session: &mut Session, unit: u8, open: &mut [Option<Open>], tag: usize, only: Option<usize>) -> bool {
        let blocks = self.plan.size / BLOCK;
        let place = only.unwrap_or(self.random.below(self.places.len() as u64) as usize);
        let lba = self.first + (place * blocks) as u64;
        let least = self.places[place].answered;
        // one write of a place at a time, so that their order is known
        let is_free = !open.iter().flatten().any(|other| other.place == place && other.write > 0);
        if only.is_none() && is_free && (least == 0 || self.random.below(2) == 0) {
            self.writes += 1;
            self.places[place].sent = self.writes;
            let mut data = vec![0; self.plan.size];
            filled(&mut data, self.number, place, self.writes);
            session.command(unit, tag as u32, lba, blocks, Some(&data));
            open[tag] = Some(Open { place, write: self.writes, least });
        } else if least > 0 {
            session.command(unit, tag as u32, lba, blocks, None);
            open[tag] = Some(Open { place, write: 0, least });
        }
        open[tag].is_some()
    }

    // Takes one answer. Answers the tag of a command that has ended.
    fn turn(
        &mut self,
        session: &mut Session,
        unit: u8,
        open: &mut [Option<Open>],
        got: &mut [Vec<u8>],
    ) -> io::Result<Option<usize>> {
        match session.event()? {
            Event::Data { tag, at, data } => {
                got[tag as usize][at..at + data.len()].copy_from_slice(&session.input[data]);
                Ok(None)
            }
            Event::Wants { tag, ttt, at, len } => {
                let Some(this) = open[tag as usize] else {
                    return Err(broken("an R2T of no command"));
                };
                let mut data = vec![0; self.plan.size];
                filled(&mut data, self.number, this.place, this.write);
                session.wanted(unit, tag, ttt, at, len, &data);
                Ok(None)
            }
            Event::Done { tag, status, sense } => {
                let Some(this) = open[tag as usize].take() else {
                    return Err(broken("an answer to no command"));
                };
                if status == 0 && this.write > 0 {
                    self.places[this.place].answered = this.write;
                } else if status == 0 {
                    if !self.judge(this.place, &got[tag as usize], this.least) {
                        let data = &got[tag as usize][..32];
                        if self.faults < 3 {
                            let place = self.places[this.place];
                            eprintln!(
                                "session {} place {}: {data:02x?}, answered {}, sent {}",
                                self.number, this.place, this.least, place.sent
                            );
                        }
                        self.faults += 1;
                    }
                } else if status == 8 || (status == 2 && sense[0] == 6) {
                    self.busy += 1;
                } else {
                    return Err(broken(&format!("status {status:02x} sense {sense:02x?}")));
                }
                Ok(Some(tag as usize))
            }
        }
    }

    // Commands until the time is over.
    fn run(&mut self, is_over: &AtomicBool, ended: &AtomicU64) -> io::Result<()> {
        let (mut session, unit) = self.plan.login(self.number)?;
        let depth = self.plan.depth;
        let mut open = vec![None; depth];
        let mut got = vec![vec![0; self.plan.size]; depth];
        let mut count = 0;
        loop {
            let goes_on = !is_over.load(Ordering::Relaxed);
            for tag in 0..depth {
                if goes_on && open[tag].is_none() && session.has_room() && self.begin(&mut session, unit, &mut open, tag, None)
                {
                    count += 1;
                }
            }
            if count == 0 && !goes_on {
                return Ok(());
            }
            if count > 0 && self.turn(&mut session, unit, &mut open, &mut got)?.is_some() {
                count -= 1;
                ended.fetch_add(1, Ordering::Relaxed);
            }
        }
    }

    // Reads all places.
    fn check(&mut self) -> io::Result<()> {
        let (mut session, unit) = self.plan.login(self.number)?;
        let mut got = vec![vec![0; self.plan.size]; 1];
        for place in 0..self.places.len() {
            let mut open = vec![None; 1];
            while open[0].is_some() || self.begin(&mut session, unit, &mut open, 0, Some(place)) {
                if self.turn(&mut session, unit, &mut open, &mut got)?.is_some() {
                    break;
                }
            }
        }
        Ok(())
    }
}

fn load(plan: &Plan) -> io::Result<()> {
    let (mut first, first_unit) = plan.login(plan.sessions)?;
    let blocks = first.capacity(first_unit)?;
    drop(first);
    let share = blocks / plan.sessions as u64;
    let places = (share / (plan.size / BLOCK) as u64).min(4096) as usize;
    let is_over = Arc::new(AtomicBool::new(false));
    let ended = Arc::new(AtomicU64::new(0));
    let workers: Vec<_> = (0..plan.sessions)
        .map(|number| {
            let (plan, is_over, ended) = (plan.clone(), is_over.clone(), ended.clone());
            std::thread::spawn(move || {
                let mut worker = Worker {
                    plan,
                    number,
                    places: vec![Place::default(); places],
                    writes: 0,
                    first: share * number as u64,
                    random: Random(number as u64 + 88172645463325252),
                    faults: 0,
                    busy: 0,
                };
                if let Err(e) = worker.run(&is_over, &ended) {
                    eprintln!("session {number}: {e}");
                }
                let since = Instant::now();
                while let Err(e) = worker.check() {
                    if since.elapsed() > Duration::from_secs(60) {
                        eprintln!("session {number}: not checked: {e}");
                        worker.faults += 1;
                        break;
                    }
                    std::thread::sleep(Duration::from_millis(200));
                }
                let answered = worker.places.iter().filter(|place| place.answered > 0).count();
                (worker.faults, worker.busy, worker.writes, answered as u64)
            })
        })
        .collect();
    let began = Instant::now();
    while began.elapsed() < plan.time && workers.iter().any(|worker| !worker.is_finished()) {
        std::thread::sleep(Duration::from_millis(100));
    }
    is_over.store(true, Ordering::Relaxed);
    let sums = workers.into_iter().map(|worker| worker.join().unwrap());
    let (faults, busy, writes, answered) =
        sums.fold((0, 0, 0, 0), |a, b| (a.0 + b.0, a.1 + b.1, a.2 + b.2, a.3 + b.3));
    println!(
        "{} commands, {writes} writes; {busy} told BUSY or an attention; {answered} places with an answered write read back; {faults} faults",
        ended.load(Ordering::Relaxed)
    );
    std::process::exit(if faults > 0 { 1 } else { 0 });
}

fn main() -> io::Result<()> {
    let words: Vec<String> = std::env::args().skip(1).collect();
    if words.len() < 8 {
        eprintln!(
            "client ADDRESS[,ADDRESS..] TARGET UNIT[,UNIT..] read|write|fua|flush|load SIZE DEPTH SESSIONS SECONDS|COUNTx \
            [REGION [FIRST]]"
        );
        std::process::exit(2);
    }
    let number = |at: usize| words[at].parse::<u64>().expect("a number");
    let count = words[7].strip_suffix('x').map(|count| count.parse::<u64>().expect("a count"));
    let seconds = if count.is_some() { 0.0 } else { words[7].parse::<f64>().expect("seconds") };
    let plan = Plan {
        addresses: words[0].split(',').map(str::to_string).collect(),
        target: words[1].clone(),
        units: words[2].split(',').map(|unit| unit.parse().expect("a unit")).collect(),
        work: words[3].clone(),
        size: number(4) as usize,
        depth: number(5) as usize,
        sessions: number(6) as usize,
        time: Duration::from_millis((seconds * 1000.0) as u64),
        count: count.unwrap_or(u64::MAX),
        region: if words.len() > 8 { number(8) } else { u64::MAX },
        first: if words.len() > 9 { number(9) as usize } else { 0 },
        tells_worst: std::env::var_os("CLIENT_WORST").is_some(),
    };
    if plan.work == "load" { load(&plan) } else { benchmark(&plan) }
}
