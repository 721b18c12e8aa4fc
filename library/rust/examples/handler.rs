//! A feed handler. It receives two lines, and requests from a re-request server the messages that both lost. It prints
//! the messages in order, as `library/examples/handler.c` does.
//!
//!     cd library/rust && cargo build --release --offline --example handler
//!     target/release/examples/handler DEMO 127.0.0.1:26477 127.0.0.1:26478 127.0.0.1:26400
//!
//! The arguments are the session and the addresses of line A, line B and the server. `--help` prints them. The status
//! is 0 if it delivered the whole session, 1 if no datagram arrived for ten seconds, and 3 after an error.

use mold::{Origin, RepairOptions, Repairer, Session};
use std::error::Error;
use std::io::{self, BufWriter, StdoutLock, Write};
use std::net::{SocketAddr, ToSocketAddrs, UdpSocket};
use std::process::ExitCode;
use std::time::{Duration, Instant};

const USAGE: &str = "usage: handler SESSION LINE_A LINE_B SERVER

Prints the messages of a feed that arrives on two lines. LINE_A, LINE_B and SERVER are addresses such as
127.0.0.1:26477. There are no options but --help, which prints this text.
";
const ORIGINS: [Origin; 3] = [Origin::LineA, Origin::LineB, Origin::Server(0)];
/// The handler ends if no datagram arrives for this time.
const QUIET: Duration = Duration::from_secs(10);
/// How long it sleeps if no datagram is there.
const PAUSE: Duration = Duration::from_micros(200);

struct Handler {
    repairer: Repairer,
    /// The sockets of the origins, in the same order.
    sockets: [UdpSocket; 3],
    server: SocketAddr,
    out: BufWriter<StdoutLock<'static>>,
    /// The moment that times are counted from, and the time of the last datagram.
    began: Instant,
    last_came: Duration,
}

impl Handler {
    fn open(session: Session, a: &str, b: &str, server: &str) -> Result<Self, Box<dyn Error>> {
        let sockets = [UdpSocket::bind(a)?, UdpSocket::bind(b)?, UdpSocket::bind("0.0.0.0:0")?];
        let server = server.to_socket_addrs()?.next().ok_or("the server has no address")?;
        sockets.iter().try_for_each(|socket| socket.set_nonblocking(true))?;
        Ok(Self {
            repairer: Repairer::new(session, &RepairOptions::default())?,
            sockets,
            server,
            out: BufWriter::new(io::stdout().lock()),
            began: Instant::now(),
            last_came: Duration::ZERO,
        })
    }

    /// Receives until the session is finished or nothing arrives. Returns whether it is finished.
    fn run(&mut self) -> Result<bool, Box<dyn Error>> {
        let mut room = vec![0; 65507];
        while !self.repairer.listener().finished() && self.began.elapsed() < self.last_came + QUIET {
            let count = (0..ORIGINS.len()).filter(|&index| self.receive(index, &mut room)).count();
            self.print_batch()?;
            self.repair()?;
            if count == 0 {
                self.out.flush()?;
                std::thread::sleep(PAUSE);
            }
        }
        let (finished, next) = (self.repairer.listener().finished(), self.repairer.listener().next());
        writeln!(self.out, "{} next {next}", if finished { "finished" } else { "open" })?;
        self.out.flush()?;
        Ok(finished)
    }

    /// Takes a datagram of a socket, and returns whether there was one. A receive also fails if no process receives at
    /// the server's port.
    fn receive(&mut self, index: usize, room: &mut [u8]) -> bool {
        let Ok(length) = self.sockets[index].recv(room) else {
            return false;
        };
        self.last_came = self.began.elapsed();
        if let Err(refused) = self.repairer.take(self.last_came, ORIGINS[index], &room[..length]) {
            let number = refused.number().map_or_else(String::new, |number| format!(" {number}"));
            eprintln!("refused {refused}{number}");
        }
        true
    }

    /// Prints the messages of the batch, and clears it.
    fn print_batch(&mut self) -> io::Result<()> {
        for (sequence, message) in self.repairer.listener().batch() {
            print_message(&mut self.out, sequence, message)?;
        }
        self.repairer.clear();
        Ok(())
    }

    /// Gives up messages and sends requests, as far as that is due.
    fn repair(&mut self) -> Result<(), Box<dyn Error>> {
        let now = self.began.elapsed();
        while let Some(lost) = self.repairer.lost(now)? {
            writeln!(self.out, "lost {} {}", lost.start(), lost.end())?;
            self.print_batch()?;
        }
        while let Some((_, request)) = self.repairer.poll(now)? {
            // A request that is not sent is sent again later.
            let _ = self.sockets[2].send_to(&request, self.server);
        }
        Ok(())
    }
}

fn print_message(out: &mut impl Write, sequence: u64, message: &[u8]) -> io::Result<()> {
    write!(out, "{sequence} {}", if message.is_empty() { "-" } else { "" })?;
    message.iter().try_for_each(|byte| write!(out, "{byte:02x}"))?;
    writeln!(out)
}

fn main() -> ExitCode {
    let words: Vec<String> = std::env::args().skip(1).collect();
    if words.iter().any(|word| word == "--help") {
        print!("{USAGE}");
        return ExitCode::SUCCESS;
    }
    if let Some(word) = words.iter().find(|word| word.starts_with("--")) {
        eprint!("{word}: no such option\n{USAGE}");
        return ExitCode::from(3);
    }
    let [session, a, b, server] = words.as_slice() else {
        eprint!("{USAGE}");
        return ExitCode::from(3);
    };
    let Some(session) = Session::padded(session) else {
        eprintln!("{session}: a session has at most 10 bytes");
        return ExitCode::from(3);
    };
    match Handler::open(session, a, b, server).and_then(|mut handler| handler.run()) {
        Ok(true) => ExitCode::SUCCESS,
        Ok(false) => ExitCode::from(1),
        Err(why) => {
            eprintln!("{why}");
            ExitCode::from(3)
        }
    }
}
