//! What `tests/redis_load` does, over Rust's r2d2 with a client of the same shape: one deadline for
//! each call, requests and replies by RESP 2, and with `quiet` as a fifth word a look before each
//! request and at each return whether bytes came that nobody asked for.

use std::ffi::{c_int, c_void};
use std::io::{Error, ErrorKind, Read, Result, Write};
use std::net::TcpStream;
use std::os::fd::AsRawFd;
use std::sync::atomic::{AtomicU64, Ordering};
use std::time::{Duration, Instant};

const PIECE: usize = 16 * 1024;
// Of Linux: to read without taking, and without waiting.
const MSG_PEEK: c_int = 2;
const MSG_DONTWAIT: c_int = 0x40;

extern "C" {
    fn recv(socket: c_int, bytes: *mut c_void, length: usize, flags: c_int) -> isize;
}

#[derive(Debug)]
enum Reply {
    Status(String),
    Number(i64),
    Value(Vec<u8>),
    Nothing,
}

struct Connection {
    stream: TcpStream,
    came: Vec<u8>,
    piece: Vec<u8>,
    timeout: Duration,
    limit: Duration,
    is_broken: bool,
    is_quiet: bool,
}

impl Connection {
    fn open(address: &str, timeout: Duration, is_quiet: bool) -> Result<Connection> {
        let stream = TcpStream::connect(address)?;
        stream.set_nodelay(true)?;
        let mut connection = Connection {
            stream,
            came: Vec::new(),
            piece: vec![0; PIECE],
            timeout,
            limit: Duration::MAX,
            is_broken: false,
            is_quiet,
        };
        connection.command(&["PING"])?;
        Ok(connection)
    }

    fn command(&mut self, words: &[&str]) -> Result<Reply> {
        if self.is_broken {
            return Err(Error::from(ErrorKind::BrokenPipe));
        }
        let begun = Instant::now();
        self.is_broken = true;
        self.must_be_quiet()?;
        let mut request = Vec::with_capacity(64);
        write!(request, "*{}\r\n", words.len())?;
        for word in words {
            write!(request, "${}\r\n{word}\r\n", word.len())?;
        }
        self.stream.write_all(&request)?;
        let reply = self.reply(begun)?;
        self.is_broken = false;
        Ok(reply)
    }

    fn reply(&mut self, begun: Instant) -> Result<Reply> {
        loop {
            if let Some((reply, length)) = reply_at(&self.came)? {
                self.came.drain(..length);
                return Ok(reply);
            }
            let left = self.timeout.saturating_sub(begun.elapsed());
            if self.limit > left + self.timeout / 10 {
                self.stream.set_read_timeout(Some(left))?;
                self.limit = left;
            }
            match self.stream.read(&mut self.piece)? {
                0 => return Err(Error::from(ErrorKind::UnexpectedEof)),
                count => self.came.extend_from_slice(&self.piece[..count]),
            }
        }
    }

    fn must_be_quiet(&mut self) -> Result<()> {
        if !self.is_quiet {
            return Ok(());
        }
        let (mut byte, flags) = ([0u8; 1], MSG_PEEK | MSG_DONTWAIT);
        let seen = unsafe { recv(self.stream.as_raw_fd(), byte.as_mut_ptr().cast(), 1, flags) };
        match Error::last_os_error() {
            error if seen < 0 && error.kind() == ErrorKind::WouldBlock => Ok(()),
            _ => Err(Error::from(ErrorKind::InvalidData)),
        }
    }
}

fn reply_at(bytes: &[u8]) -> Result<Option<(Reply, usize)>> {
    let Some(end) = bytes.windows(2).position(|it| it == b"\r\n") else {
        return Ok(None);
    };
    let malformed = || Error::from(ErrorKind::InvalidData);
    let text = std::str::from_utf8(&bytes[1..end]).map_err(|_| malformed())?;
    let rest = end + 2;
    Ok(Some(match bytes[0] {
        b'+' => (Reply::Status(text.to_string()), rest),
        b':' => (Reply::Number(text.parse().map_err(|_| malformed())?), rest),
        b'$' if text == "-1" => (Reply::Nothing, rest),
        b'$' => {
            let length: usize = text.parse().map_err(|_| malformed())?;
            if bytes.len() < rest + length + 2 {
                return Ok(None);
            }
            (Reply::Value(bytes[rest..rest + length].to_vec()), rest + length + 2)
        }
        _ => return Err(malformed()),
    }))
}

struct Manager {
    address: String,
    is_quiet: bool,
}

impl r2d2::ManageConnection for Manager {
    type Connection = Connection;
    type Error = Error;

    fn connect(&self) -> Result<Connection> {
        Connection::open(&self.address, Duration::from_secs(5), self.is_quiet)
    }

    fn is_valid(&self, connection: &mut Connection) -> Result<()> {
        connection.command(&["PING"]).map(drop)
    }

    fn has_broken(&self, connection: &mut Connection) -> bool {
        connection.is_broken || connection.must_be_quiet().is_err()
    }
}

fn main() {
    let words: Vec<String> = std::env::args().skip(1).collect();
    let manager = Manager {
        address: words[0].clone(),
        is_quiet: words.get(4).is_some(),
    };
    let pool = r2d2::Pool::builder()
        .max_size(8)
        .test_on_check_out(words[2] == "always")
        .build_unchecked(manager);
    let threads: u32 = words[1].parse().expect("threads");
    let each = words[3].parse::<u32>().expect("commands") / threads;
    load(&pool, threads, 100);
    let begun = Instant::now();
    load(&pool, threads, each);
    println!("{}", begun.elapsed().as_nanos());
}

fn load(pool: &r2d2::Pool<Manager>, threads: u32, each: u32) {
    let done = AtomicU64::new(0);
    std::thread::scope(|scope| {
        for _ in 0..threads {
            scope.spawn(|| {
                for _ in 0..each {
                    let mut redis = pool.get().expect("a connection");
                    let reply = redis.command(&["INCR", "n"]).expect("a reply");
                    assert!(matches!(reply, Reply::Number(_)), "{reply:?}");
                    done.fetch_add(1, Ordering::Relaxed);
                }
            });
        }
    });
    assert_eq!(done.into_inner(), u64::from(threads * each));
}
