//! Eight studios at once over loopback sockets, each in a thread and a scheme of
//! its own, against one rack: `cargo run --example rack`.
//!
//! The rack serves each studio by a thread that has that studio's session alone.
//! A studio calls, tells its number, and makes its exchanges: who offers is drawn
//! anew for each, and no studio waits for another. In the end every key of a studio
//! is compared with the rack's. As in `two_boxes` the bytes are fixed ones, for the
//! example alone, and so are the keys that are kept.

use std::error::Error;
use std::io::{ErrorKind, Read, Write};
use std::net::{Ipv4Addr, SocketAddr, TcpListener, TcpStream};
use std::thread;
use std::time::{Duration, Instant};
use wimmostry::{grow, Rack, Refusal, Replier, Rule, Scheme, Secret, Session, Stage, Studio};
use wimmostry::{BCNS_TABLE, RACK, SESSION};

/// Exchanges of a studio, and how long the whole may take.
const EXCHANGES: usize = 40;
const LIMIT: Duration = Duration::from_secs(60);

type Fault = Box<dyn Error + Send + Sync>;

/// The keys of a studio's exchanges, in their order.
type Keys = Vec<Vec<u8>>;

/// Stands in for the system's generator: fixed bytes, for the example alone.
struct Bytes(u64);

impl Bytes {
    fn take(&mut self, count: usize) -> Vec<u8> {
        let mut next = || {
            self.0 ^= self.0 << 13;
            self.0 ^= self.0 >> 7;
            self.0 ^= self.0 << 17;
            (self.0 >> 32) as u8
        };
        (0..count).map(|_| next()).collect()
    }
}

/// What one end of a line has: its scheme, the public numbers that both ends have,
/// and the line.
struct End {
    scheme: Scheme,
    a: Vec<u32>,
    bytes: Bytes,
    line: TcpStream,
}

impl End {
    fn new(studio: Studio, seed: u64, line: TcpStream) -> Result<End, Fault> {
        let scheme = Scheme::ALL[studio.number() as usize % Scheme::ALL.len()];
        line.set_read_timeout(Some(LIMIT))?;
        line.set_write_timeout(Some(LIMIT))?;
        line.set_nodelay(true)?;
        let mut end = End {
            scheme,
            a: vec![0; scheme.sizes().a],
            bytes: Bytes(seed + u64::from(studio.number())),
            line,
        };
        if scheme != Scheme::NewHope {
            let q = scheme.sizes().q;
            let four = |x: &[u8]| u32::from_le_bytes([x[0], x[1], x[2], x[3]]) % q;
            let bytes = Bytes(0x5eed).take(4 * end.a.len());
            end.a = bytes.chunks_exact(4).map(four).collect();
        }
        Ok(end)
    }

    /// NewHope's public numbers, which grow from the seed of each exchange.
    fn grow(&mut self, seed: &[u8]) -> Result<(), Refusal> {
        if self.scheme == Scheme::NewHope {
            let seed = seed.try_into().map_err(|_| Refusal::Length)?;
            grow(Rule::LowBits, seed, &mut self.a)?;
        }
        Ok(())
    }

    /// Noise from so many bytes, as many values as `room` takes.
    fn secret<'b>(&mut self, bytes: usize, room: &'b mut [i32]) -> Result<Secret<'b>, Refusal> {
        let mut bytes = self.bytes.take(bytes);
        let table = &BCNS_TABLE[..self.scheme.sizes().table];
        Secret::noise(self.scheme, Secret::new(&mut bytes), table, room)
    }

    fn offer(&mut self, session: &mut Session) -> Result<(), Fault> {
        let sizes = self.scheme.sizes();
        let seed = self.bytes.take(sizes.seed);
        self.grow(&seed)?;
        let (mut s, mut e) = (vec![0; sizes.s], vec![0; sizes.s]);
        let s = self.secret(sizes.s_bytes, &mut s)?;
        let e = self.secret(sizes.s_bytes, &mut e)?;
        let mut opening = vec![0; sizes.opening];
        let offered = session.offer(self.scheme, &self.a, s, e, &seed, &mut opening)?;
        self.line.write_all(offered.opening)?;
        let mut reply = vec![0; sizes.reply];
        self.line.read_exact(&mut reply)?;
        session
            .finish(offered.initiator, &reply)
            .map_err(Refusal::from)?;
        Ok(())
    }

    fn reply(&mut self, session: &mut Session) -> Result<(), Fault> {
        let sizes = self.scheme.sizes();
        let mut opening = vec![0; sizes.opening];
        self.line.read_exact(&mut opening)?;
        self.grow(&opening[sizes.opening - sizes.seed..])?;
        let (mut s1, mut e1, mut e2) = (vec![0; sizes.s], vec![0; sizes.s], vec![0; sizes.e2]);
        let s1 = self.secret(sizes.s_bytes, &mut s1)?;
        let e1 = self.secret(sizes.s_bytes, &mut e1)?;
        let e2 = self.secret(sizes.e2_bytes, &mut e2)?;
        let mut coins = self.bytes.take(sizes.coins);
        let replier = Replier::new(self.scheme, s1, e1, e2, Secret::new(&mut coins));
        let mut message = vec![0; sizes.reply];
        let answered = session.reply(replier, &opening, &self.a, &mut message)?;
        self.line.write_all(answered.message)?;
        Ok(())
    }

    /// One exchange, and the key that it left in the session, which is closed.
    fn exchange(&mut self, session: &mut Session, offers: bool) -> Result<Vec<u8>, Fault> {
        match offers {
            true => self.offer(session)?,
            false => self.reply(session)?,
        }
        let key = session.key().ok_or("no key")?.to_vec();
        session.close();
        Ok(key)
    }
}

/// A studio: it calls, tells its number, and tells before each exchange who offers.
fn studio(studio: Studio, rack: SocketAddr) -> Result<Keys, Fault> {
    let mut line = TcpStream::connect(rack)?;
    line.write_all(&[studio.number() as u8])?;
    let mut end = End::new(studio, 100, line)?;
    let mut bytes = [0; SESSION];
    let mut session = Session::new(&mut bytes);
    let mut keys = vec![];
    for _ in 0..EXCHANGES {
        let offers = end.bytes.take(1)[0] & 1;
        end.line.write_all(&[offers])?;
        keys.push(end.exchange(&mut session, offers == 1)?);
    }
    Ok(keys)
}

/// The rack's side of a line, on the session of its studio.
fn serve(studio: Studio, session: &mut Session, line: TcpStream) -> Result<Keys, Fault> {
    let mut end = End::new(studio, 200, line)?;
    let mut keys = vec![];
    for _ in 0..EXCHANGES {
        let mut offers = [0];
        end.line.read_exact(&mut offers)?;
        keys.push(end.exchange(session, offers == [0])?);
    }
    Ok(keys)
}

/// The lines of all studios, in whichever order they call.
fn calls(listener: &TcpListener) -> Result<Vec<(Studio, TcpStream)>, Fault> {
    let end = Instant::now() + LIMIT;
    listener.set_nonblocking(true)?;
    let mut lines: Vec<(Studio, TcpStream)> = vec![];
    while lines.len() < Studio::ALL.len() {
        match listener.accept() {
            Ok((mut line, _)) => {
                line.set_nonblocking(false)?;
                line.set_read_timeout(Some(LIMIT))?;
                let mut number = [0];
                line.read_exact(&mut number)?;
                let studio = Studio::try_from(u32::from(number[0]))?;
                if lines.iter().any(|(other, _)| *other == studio) {
                    return Err(format!("studio {studio} called twice").into());
                }
                lines.push((studio, line));
            }
            Err(error) if error.kind() == ErrorKind::WouldBlock && Instant::now() < end => {
                thread::sleep(Duration::from_millis(1));
            }
            Err(error) => return Err(error.into()),
        }
    }
    Ok(lines)
}

fn main() -> Result<(), Fault> {
    let listener = TcpListener::bind((Ipv4Addr::LOCALHOST, 0))?;
    let address = listener.local_addr()?;
    let studios = Studio::ALL.map(|number| thread::spawn(move || studio(number, address)));
    let mut lines = calls(&listener)?;
    lines.sort_by_key(|(studio, _)| *studio);

    let mut bytes = [0; RACK];
    let mut rack = Rack::new(&mut bytes);
    let served: Vec<Result<Keys, Fault>> = thread::scope(|threads| {
        let sessions = lines.into_iter().zip(rack.sessions());
        let served: Vec<_> = sessions
            .map(|((studio, line), mut session)| {
                threads.spawn(move || serve(studio, &mut session, line))
            })
            .collect();
        let ended = served.into_iter().map(|thread| thread.join());
        ended.map(|ended| ended.expect("a thread")).collect()
    });

    let mut compared = 0;
    for ((number, own), peer) in Studio::ALL.into_iter().zip(served).zip(studios) {
        let (own, peer) = (own?, peer.join().expect("a studio's thread")?);
        if own != peer || own.len() != EXCHANGES {
            return Err(format!("studio {number}: the keys differ").into());
        }
        if rack.stage(number) != Some(Stage::Idle) {
            return Err(format!("studio {number}: its session is not closed").into());
        }
        compared += own.len();
    }
    println!(
        "a rack and eight studios at once: {compared} exchanges, every key the same at both ends"
    );
    Ok(())
}
