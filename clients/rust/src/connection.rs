use crate::answer::Answer;
use crate::{json, Fault};
use std::io::{BufRead, BufReader, Error, ErrorKind, Write};
use std::net::{TcpStream, ToSocketAddrs};
use std::time::Duration;

/// How deep the parts of an answer stand within one another.
const DEEP: u8 = 4;

pub struct Connection(BufReader<TcpStream>);

impl Connection {
    pub fn new(host: &str, port: u16, limit: Duration) -> Result<Connection, Error> {
        let mut fault = ErrorKind::NotFound.into();
        for address in (host, port).to_socket_addrs()? {
            match TcpStream::connect_timeout(&address, limit) {
                Ok(stream) => {
                    stream.set_nodelay(true)?;
                    return Ok(Connection(BufReader::new(stream)));
                }
                Err(error) => fault = error,
            }
        }
        Err(fault)
    }

    /// Itself, if it still stands, and nothing has come that nobody asked for.
    pub fn quiet(self) -> Option<Connection> {
        let stream = self.0.get_ref();
        stream.set_nonblocking(true).ok()?;
        let came = stream.peek(&mut [0]);
        stream.set_nonblocking(false).ok()?;
        let is_quiet = self.0.buffer().is_empty() && came.is_err_and(|error| error.kind() == ErrorKind::WouldBlock);
        is_quiet.then_some(self)
    }

    pub fn limit(&mut self, limit: Duration) -> Result<(), Error> {
        self.0.get_ref().set_read_timeout(Some(limit))?;
        self.0.get_ref().set_write_timeout(Some(limit))
    }

    pub fn send(&mut self, lines: &str) -> Result<(), Error> {
        self.0.get_mut().write_all(lines.as_bytes())
    }

    /// The next line as an answer, or as a refusal. After the `last` one nothing more may have come.
    pub fn answer<T: Answer>(&mut self, is_last: bool) -> Result<Result<T, Fault>, Fault> {
        let mut line = Vec::new();
        self.0.read_until(b'\n', &mut line).map_err(Fault::Gone)?;
        if line.pop() != Some(b'\n') {
            return Err(Fault::Gone(ErrorKind::UnexpectedEof.into()));
        }
        let line = String::from_utf8_lossy(&line);
        let is_alone = !is_last || self.0.buffer().is_empty();
        let answer = json::read(&line, DEEP).filter(|_| is_alone).and_then(|answer| match answer.get("error") {
            Some(error) => Some(Err(Fault::Refused(error.number()?, answer.get("name")?.text()?))),
            None => T::of(&answer).map(Ok),
        });
        answer.ok_or_else(|| Fault::NoAnswer(line.chars().take(80).collect()))
    }
}
