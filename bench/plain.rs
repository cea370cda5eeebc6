// A plain twin of `tally`: the same rules in everyday Rust, written without a thought of speed.
use std::collections::hash_map::{Entry, HashMap};
use std::io::{self, BufReader, BufWriter, Read, Write};

const FRAME: usize = 24;
const TARIFFS: usize = 16;
const ACCOUNTS: usize = 16;

#[derive(Clone, Copy, PartialEq, Eq, Hash)]
struct Address {
    kind: u8,
    number: u8,
}

enum Form {
    Plain,
    Switch { interval: Option<u32> },
}

struct Report {
    address: Address,
    number: u16,
    active: bool,
    form: Form,
    time: u32,
}

struct Account {
    last: u16,
    ticks: Vec<u32>, // of tariffs 1 up to the current
}

/// What ends a run early: a failing read or write, a wrong byte of a frame, or a code of the account rule.
enum Stop {
    Io(io::Error),
    Frame(usize),
    Account(u8),
}

impl From<io::Error> for Stop {
    fn from(error: io::Error) -> Stop {
        Stop::Io(error)
    }
}

fn u16_at(frame: &[u8; FRAME], at: usize) -> u16 {
    u16::from_le_bytes(frame[at..at + 2].try_into().unwrap())
}

fn u32_at(frame: &[u8; FRAME], at: usize) -> u32 {
    u32::from_le_bytes(frame[at..at + 4].try_into().unwrap())
}

impl Report {
    /// The report of a frame, checked in the order of its bytes.
    fn parse(frame: &[u8; FRAME]) -> Result<Report, Stop> {
        let check = |right: bool, place: usize| if right { Ok(()) } else { Err(Stop::Frame(place)) };
        let address = Address { kind: frame[4], number: frame[5] };
        let number = u16_at(frame, 6);
        let flags = frame[8];
        let (tick, time, interval) = (u32_at(frame, 12), u32_at(frame, 16), u32_at(frame, 20));
        let active = flags & 1 != 0;
        let switch = flags & 2 != 0;
        let has_interval = flags & 4 != 0;
        let released = flags & 8 != 0;

        check(u16_at(frame, 0) == 24, 0)?;
        check(u16_at(frame, 2) == 1, 2)?;
        check((1..=2).contains(&address.kind), 4)?;
        check((1..=127).contains(&address.number), 5)?;
        check((1..=10_000).contains(&number), 6)?;
        check(flags < 16 && (switch || !has_interval) && !(released && active), 8)?;
        check((1..=2).contains(&frame[9]), 9)?;
        check(u16_at(frame, 10) == 0, 10)?;
        check(tick <= 2_000_000_000, 12)?;
        check((interval != 0) == has_interval, 20)?;
        check(u64::from(time) + u64::from(interval) <= u64::from(tick), 20)?;

        let form = if switch {
            Form::Switch { interval: has_interval.then_some(interval) }
        } else {
            Form::Plain
        };
        Ok(Report { address, number, active, form, time })
    }
}

impl Account {
    fn new() -> Account {
        Account { last: 0, ticks: vec![0] }
    }

    fn set_current(&mut self, ticks: u32) -> Result<(), Stop> {
        let current = self.ticks.last_mut().unwrap();
        if ticks < *current {
            return Err(Stop::Account(16));
        }
        *current = ticks;
        Ok(())
    }

    fn next_tariff(&mut self) -> Result<(), Stop> {
        if self.ticks.len() == TARIFFS {
            return Err(Stop::Account(16));
        }
        self.ticks.push(0);
        Ok(())
    }

    fn read(&mut self, report: &Report) -> Result<(), Stop> {
        if report.number != self.last + 1 {
            return Err(Stop::Account(16));
        }
        let first = self.ticks.len() == 1;
        match report.form {
            Form::Plain if !first => return Err(Stop::Account(16)),
            Form::Plain => {}
            Form::Switch { interval: Some(interval) } => {
                self.set_current(interval)?;
                self.next_tariff()?;
            }
            Form::Switch { interval: None } if first => {
                if self.ticks[0] != 0 {
                    return Err(Stop::Account(16));
                }
                self.next_tariff()?;
            }
            Form::Switch { interval: None } => {}
        }
        self.set_current(report.time)?;
        self.last = report.number;
        Ok(())
    }
}

fn write_line(out: &mut impl Write, report: &Report, state: &str, account: &Account) -> io::Result<()> {
    let Address { kind, number } = report.address;
    write!(out, "{kind}.{number} #{} {state}", report.number)?;
    for (i, ticks) in account.ticks.iter().enumerate() {
        write!(out, " {}:{ticks}", i + 1)?;
    }
    writeln!(out)
}

/// Reads one report by the account rule and writes its line.
fn tell(out: &mut impl Write, accounts: &mut HashMap<Address, Account>, report: &Report) -> Result<(), Stop> {
    let open = accounts.len();
    let state = if report.active { "open" } else { "closed" };
    match accounts.entry(report.address) {
        Entry::Occupied(mut entry) => {
            let account = entry.get_mut();
            if report.number == account.last {
                write_line(out, report, "repeat", account)?;
                return Ok(());
            }
            account.read(report)?;
            write_line(out, report, state, account)?;
            if !report.active {
                entry.remove();
            }
        }
        Entry::Vacant(entry) => {
            let mut account = Account::new();
            account.read(report)?;
            if open == ACCOUNTS {
                return Err(Stop::Account(17));
            }
            write_line(out, report, state, &account)?;
            if report.active {
                entry.insert(account);
            }
        }
    }
    Ok(())
}

/// Fills the frame; gives how many bytes there were before the input's end.
fn read_frame(input: &mut impl Read, frame: &mut [u8; FRAME]) -> io::Result<usize> {
    let mut have = 0;
    while have < FRAME {
        match input.read(&mut frame[have..])? {
            0 => break,
            n => have += n,
        }
    }
    Ok(have)
}

/// Tells frame after frame; `place` is where the frame at hand begins.
fn run(out: &mut impl Write, place: &mut usize) -> Result<(), Stop> {
    let mut input = BufReader::new(io::stdin().lock());
    let mut accounts = HashMap::new();
    let mut frame = [0; FRAME];
    loop {
        if input.buffer().len() < FRAME {
            out.flush()?; // what can be told is told before the next read
        }
        match read_frame(&mut input, &mut frame)? {
            0 => return Ok(()),
            FRAME => tell(out, &mut accounts, &Report::parse(&frame)?)?,
            short => return Err(Stop::Frame(short)),
        }
        *place += FRAME;
    }
}

fn main() -> io::Result<()> {
    let mut out = BufWriter::new(io::stdout().lock());
    let mut place = 0;
    match run(&mut out, &mut place) {
        Ok(()) => {}
        Err(Stop::Io(error)) => return Err(error),
        Err(Stop::Frame(at)) => writeln!(out, "fault frame 15 {}", place + at)?,
        Err(Stop::Account(code)) => writeln!(out, "fault account {code} {place}")?,
    }
    out.flush()
}
