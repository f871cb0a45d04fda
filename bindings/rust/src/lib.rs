//! Both ends of MTProto 2.0 sessions: a client and a server without sockets and clocks. Packets come in by `handle_packet` and go out by
//! `poll_transmit`. A moment `now` is Unix time in seconds. A method that answers an error leaves its object as if it hadn't been called,
//! unless it says otherwise; `Error::Memory` may come of each and isn't named again. A process that forks goes on with an object on one
//! side alone, since both would draw the same numbers.

#![warn(missing_docs)]

mod error;
mod framing;
mod raw;

pub use error::{Error, Refusal};
use error::{must, TOO_SHORT};
pub use framing::Wire;
use raw::Handle;
use std::{ffi::CStr, fmt, fs::File, io, io::Read, time::SystemTime};

/// The library's version.
pub fn version() -> String {
    // It is a static text that ends in 0.
    unsafe { CStr::from_ptr(raw::kf_version()) }.to_string_lossy().into_owned()
}

/// Of what the library was built: `proved`, or `checked, not proved`.
pub fn build() -> String {
    // The same.
    unsafe { CStr::from_ptr(raw::kf_build()) }.to_string_lossy().into_owned()
}

/// The present moment, in seconds.
pub fn now() -> u64 {
    SystemTime::UNIX_EPOCH.elapsed().map_or(0, |since| since.as_secs())
}

/// A seed from the system's random source.
///
/// # Errors
///
/// Those of reading it.
pub fn seed() -> io::Result<[u8; 32]> {
    let mut seed = [0; 32];
    File::open("/dev/urandom")?.read_exact(&mut seed)?;
    Ok(seed)
}

/// The identifier of a key, from the 16 digits that examples/make_keys and `mtp` write.
pub fn key_id(digits: &str) -> Option<u64> {
    let is_digits = digits.len() == 16 && digits.bytes().all(|byte| byte.is_ascii_hexdigit());
    if !is_digits {
        return None;
    }
    u64::from_str_radix(digits, 16).ok().map(u64::swap_bytes)
}

/// The bytes that a call puts into room, with more of it where it asks for more.
fn bytes_of(mut call: impl FnMut(*mut u8, usize, *mut usize) -> u32) -> Result<Vec<u8>, Error> {
    let (mut room, mut len) = (vec![0; 2048], 0);
    let mut status = call(room.as_mut_ptr(), room.len(), &mut len);
    if status == TOO_SHORT {
        room.resize(len, 0);
        status = call(room.as_mut_ptr(), room.len(), &mut len);
    }
    must(status)?;
    room.truncate(len);
    Ok(room)
}

/// A call of a client.
#[derive(Clone, Copy, Debug, PartialEq, Eq)]
pub struct CallId(u64);

/// What became of a call.
#[derive(Clone, Copy, Debug, PartialEq, Eq)]
pub enum State {
    /// It waits to be sent.
    Queued,
    /// It was sent, and isn't answered.
    Sent,
    /// The client's clock is ahead of the server's, and it waits for another session: `renew`, once none is sent.
    Held,
    /// It has a reply, which may be an error.
    Done,
    /// It never executes; the code is the server's, 0 where the client gave it up.
    Refused(u32),
    /// It isn't known whether it executed; the code is 1 the server lost the session, 2 renewed, 3 ended, 4 forgotten.
    Unknown(u32),
}

/// What names a session: the identifier of its key, and its number.
#[derive(Clone, Copy, Debug, PartialEq, Eq, Hash)]
pub struct SessionName {
    /// The identifier of its key.
    pub key: u64,
    /// Its number under that key.
    pub session: u64,
}

/// A client. Its packets go to the server, and the server's come to `handle_packet`.
pub struct Client(Handle);

// A handle may go from thread to thread, and `&mut` keeps it to one at a time.
unsafe impl Send for Client {}

impl Client {
    /// A client under the permanent key with this identifier, which the text of a key file has. The seed is to be random, and used once.
    ///
    /// # Errors
    ///
    /// `BadKeys`, `NoKey`.
    pub fn new(keys: &[u8], key: u64, seed: &[u8; 32]) -> Result<Client, Error> {
        let mut client = Client(Handle::INIT);
        must(unsafe { raw::kf_client_new(&mut client.0, keys.as_ptr(), keys.len(), key, seed.as_ptr()) })?;
        Ok(client)
    }

    /// A client under a temporary key, which the server is to bind to the key `perm` up to the moment `expires`.
    ///
    /// # Errors
    ///
    /// `BadKeys`, `NoKey`, where the text hasn't both.
    pub fn new_temp(keys: &[u8], temp: u64, perm: u64, expires: u64, seed: &[u8; 32]) -> Result<Client, Error> {
        let mut client = Client(Handle::INIT);
        must(unsafe { raw::kf_client_new_temp(&mut client.0, keys.as_ptr(), keys.len(), temp, perm, expires, seed.as_ptr()) })?;
        Ok(client)
    }

    /// Submits a call, whole words of 4 bytes, that is to execute after an earlier one if one is given.
    ///
    /// # Errors
    ///
    /// `Ended`, `BadBody`, `NoCall`, `TooManyCalls`.
    pub fn submit(&mut self, body: &[u8], after: Option<CallId>) -> Result<CallId, Error> {
        let mut call = 0;
        must(unsafe { raw::kf_client_submit(&mut self.0, body.as_ptr(), body.len(), after.map_or(0, |it| it.0), &mut call) })?;
        Ok(CallId(call))
    }

    /// A connection was opened after an earlier one: what was sent and isn't answered is sent again.
    ///
    /// # Errors
    ///
    /// `Ended`.
    pub fn attach(&mut self) -> Result<(), Error> {
        must(unsafe { raw::kf_client_attach(&mut self.0) })
    }

    /// A packet came. Of one that doesn't open, isn't of this session or isn't lawful only the moment counts.
    ///
    /// # Errors
    ///
    /// `Refused`, why it doesn't open.
    pub fn handle_packet(&mut self, now: u64, packet: &[u8]) -> Result<(), Error> {
        must(unsafe { raw::kf_client_handle_packet(&mut self.0, now, packet.as_ptr(), packet.len()) })
    }

    /// The packet that is to be sent next, if there is one. Each is handed out once.
    ///
    /// # Errors
    ///
    /// `Spent`.
    pub fn poll_transmit(&mut self, now: u64) -> Result<Option<Vec<u8>>, Error> {
        let packet = bytes_of(|room, count, len| unsafe { raw::kf_client_poll_transmit(&mut self.0, now, room, count, len) })?;
        Ok(Some(packet).filter(|it| !it.is_empty()))
    }

    /// Goes on in another session: of calls that are sent it isn't known what became, and those that are held are queued.
    ///
    /// # Errors
    ///
    /// `NotOpen`.
    pub fn renew(&mut self) -> Result<(), Error> {
        must(unsafe { raw::kf_client_renew(&mut self.0) })
    }

    /// Goes on in another session where the client's clock is ahead of the server's: where a call is held, and none is sent. It looks at
    /// each call.
    ///
    /// # Errors
    ///
    /// None but `Memory`.
    pub fn renew_if_held(&mut self) -> Result<(), Error> {
        let mut is_held = false;
        for call in 1.. {
            match self.state(CallId(call)) {
                Ok(State::Sent) => return Ok(()),
                Ok(state) => is_held |= state == State::Held,
                Err(Error::NoCall) => break,
                Err(error) => return Err(error),
            }
        }
        match if is_held { self.renew() } else { Ok(()) } {
            Err(Error::NotOpen) => Ok(()),
            done => done,
        }
    }

    /// Ends: of calls that are sent it isn't known what became, and others that aren't decided are refused with code 0.
    ///
    /// # Errors
    ///
    /// `NotOpen`.
    pub fn end(&mut self) -> Result<(), Error> {
        must(unsafe { raw::kf_client_end(&mut self.0) })
    }

    /// Has the server asked how the calls that are sent fared.
    ///
    /// # Errors
    ///
    /// `NotOpen`.
    pub fn tick(&mut self) -> Result<(), Error> {
        must(unsafe { raw::kf_client_tick(&mut self.0) })
    }

    /// Has the server answer a ping.
    ///
    /// # Errors
    ///
    /// `NotOpen`.
    pub fn ping(&mut self, id: u64) -> Result<(), Error> {
        must(unsafe { raw::kf_client_ping(&mut self.0, id) })
    }

    /// Has the server tell so many of its next salts.
    ///
    /// # Errors
    ///
    /// `NotOpen`.
    pub fn ask_salts(&mut self, count: u32) -> Result<(), Error> {
        must(unsafe { raw::kf_client_ask_salts(&mut self.0, count) })
    }

    /// Has the server drop the answer to a call.
    ///
    /// # Errors
    ///
    /// `NotOpen`, `NotSent`.
    pub fn drop_answer(&mut self, call: CallId) -> Result<(), Error> {
        must(unsafe { raw::kf_client_drop_answer(&mut self.0, call.0) })
    }

    /// What became of a call.
    ///
    /// # Errors
    ///
    /// `NoCall`.
    pub fn state(&mut self, call: CallId) -> Result<State, Error> {
        let (mut state, mut code) = (0, 0);
        must(unsafe { raw::kf_client_state(&mut self.0, call.0, &mut state, &mut code) })?;
        Ok(match state {
            0 => State::Queued,
            1 => State::Sent,
            2 => State::Held,
            3 => State::Done,
            4 => State::Refused(code),
            _ => State::Unknown(code),
        })
    }

    /// The reply to a call. The client keeps it.
    ///
    /// # Errors
    ///
    /// `NoCall`, `NoReply`.
    pub fn take_reply(&mut self, call: CallId) -> Result<Vec<u8>, Error> {
        bytes_of(|room, count, len| unsafe { raw::kf_client_take_reply(&mut self.0, call.0, room, count, len) })
    }

    /// Whether each call is done, refused or unknown.
    ///
    /// # Errors
    ///
    /// None but `Memory`.
    pub fn calls_decided(&mut self) -> Result<bool, Error> {
        let mut decided = 0;
        must(unsafe { raw::kf_client_calls_decided(&mut self.0, &mut decided) })?;
        Ok(decided != 0)
    }

    /// The number of its session; once it ended, of its last one.
    ///
    /// # Errors
    ///
    /// None but `Memory`.
    pub fn session(&mut self) -> Result<u64, Error> {
        let mut session = 0;
        must(unsafe { raw::kf_client_session(&mut self.0, &mut session) })?;
        Ok(session)
    }
}

impl fmt::Debug for Client {
    fn fmt(&self, f: &mut fmt::Formatter<'_>) -> fmt::Result {
        f.write_str("Client { .. }")
    }
}

impl Drop for Client {
    fn drop(&mut self) {
        unsafe { raw::kf_client_free(&mut self.0) }
    }
}

/// A server, whose calls are answered from outside.
pub struct Server(Handle);

// As of a client.
unsafe impl Send for Server {}

impl fmt::Debug for Server {
    fn fmt(&self, f: &mut fmt::Formatter<'_>) -> fmt::Result {
        f.write_str("Server { .. }")
    }
}

impl Server {
    /// A server with the keys of the text of a key file. The seed is to be random, and used once.
    ///
    /// # Errors
    ///
    /// `BadKeys`.
    pub fn new(keys: &[u8], seed: &[u8; 32]) -> Result<Server, Error> {
        let mut server = Server(Handle::INIT);
        must(unsafe { raw::kf_server_new(&mut server.0, keys.as_ptr(), keys.len(), seed.as_ptr()) })?;
        Ok(server)
    }

    /// A packet came: the name of its session, whose packets go where this one came from.
    ///
    /// # Errors
    ///
    /// `Busy`, a request waits for its answer; `Refused`, why the packet doesn't open, and only the moment counts.
    pub fn handle_packet(&mut self, now: u64, packet: &[u8]) -> Result<SessionName, Error> {
        let mut name = SessionName { key: 0, session: 0 };
        must(unsafe { raw::kf_server_handle_packet(&mut self.0, now, packet.as_ptr(), packet.len(), &mut name.key, &mut name.session) })?;
        Ok(name)
    }

    /// Time passed: calls that have waited too long for others are answered.
    ///
    /// # Errors
    ///
    /// `Busy`.
    pub fn tick(&mut self, now: u64) -> Result<(), Error> {
        must(unsafe { raw::kf_server_tick(&mut self.0, now) })
    }

    /// A packet came for a session, the first one over this connection: what the server keeps for it is said again.
    ///
    /// # Errors
    ///
    /// `Busy`.
    pub fn attach(&mut self, name: SessionName, now: u64) -> Result<(), Error> {
        must(unsafe { raw::kf_server_attach(&mut self.0, name.key, name.session, now) })
    }

    /// Starts again, with no session left. Packets that wait are still handed out.
    ///
    /// # Errors
    ///
    /// `Busy`.
    pub fn restart(&mut self) -> Result<(), Error> {
        must(unsafe { raw::kf_server_restart(&mut self.0) })
    }

    /// How many requests are ready.
    ///
    /// # Errors
    ///
    /// None but `Memory`.
    pub fn ready(&mut self) -> Result<u64, Error> {
        let mut ready = 0;
        must(unsafe { raw::kf_server_ready(&mut self.0, &mut ready) })?;
        Ok(ready)
    }

    /// The next ready request, if there is one. Until it is answered, be it by an error, the server takes nothing else, and this gives it
    /// again.
    ///
    /// # Errors
    ///
    /// None but `Memory`.
    pub fn next_request(&mut self) -> Result<Option<Vec<u8>>, Error> {
        let mut there = 0;
        let request = bytes_of(|room, count, len| unsafe { raw::kf_server_next_request(&mut self.0, &mut there, room, count, len) })?;
        Ok(if there != 0 { Some(request) } else { None })
    }

    /// The request that was handed out has run, and this is its reply, whole words of 4 bytes.
    ///
    /// # Errors
    ///
    /// `NotAsked`; `BadReply` and `Memory`, and the request waits on.
    pub fn answer(&mut self, now: u64, reply: &[u8]) -> Result<(), Error> {
        must(unsafe { raw::kf_server_answer(&mut self.0, now, reply.as_ptr(), reply.len()) })
    }

    /// The packet that is to be sent next, if there is one, with the session that it is for. Each is handed out once.
    ///
    /// # Errors
    ///
    /// None but `Memory`.
    pub fn poll_transmit(&mut self) -> Result<Option<(SessionName, Vec<u8>)>, Error> {
        let mut name = SessionName { key: 0, session: 0 };
        let packet = bytes_of(|room, count, len| unsafe { raw::kf_server_poll_transmit(&mut self.0, &mut name.key, &mut name.session, room, count, len) })?;
        Ok(Some((name, packet)).filter(|it| !it.1.is_empty()))
    }
}

impl Drop for Server {
    fn drop(&mut self) {
        unsafe { raw::kf_server_free(&mut self.0) }
    }
}
