//! Calls over both ends, what is refused, and the examples over TCP.
use kifzaro::{build, key_id, version, Client, Error, Refusal, Server, State, Wire};
use std::io::{BufRead, BufReader, ErrorKind};
use std::process::{Child, Command, Stdio};

const KEY: u64 = 0xc8df_57a4_6e58_d132;
const NOW: u64 = 1_000_000;

fn keys() -> Vec<u8> {
    let digits: String = (0..=255u8).map(|byte| format!("{byte:02x}")).collect();
    format!("perm {digits}").into_bytes()
}

/// Each packet of the client comes so many times; how many requests there were.
fn turn(client: &mut Client, server: &mut Server, times: usize) -> Result<usize, Error> {
    let mut asked = 0;
    while let Some(packet) = client.poll_transmit(NOW)? {
        for _ in 0..times {
            assert_eq!(server.handle_packet(NOW, &packet)?.key, KEY);
            while let Some(request) = server.next_request()? {
                let reply: Vec<u8> = request.into_iter().rev().collect();
                server.answer(NOW, &reply)?;
                asked += 1;
            }
        }
    }
    while let Some((_name, packet)) = server.poll_transmit()? {
        client.handle_packet(NOW, &packet)?;
    }
    Ok(asked)
}

#[test]
fn packets_that_come_twice_run_once() -> Result<(), Error> {
    let mut client = Client::new(&keys(), KEY, &[1; 32])?;
    let mut server = Server::new(&keys(), &[2; 32])?;
    let call = client.submit(b"ask me!!", None)?;
    let mut asked = 0;
    for _ in 0..5 {
        asked += turn(&mut client, &mut server, 2)?;
    }
    assert_eq!((asked, client.state(call)?), (1, State::Done));
    assert_eq!(client.take_reply(call)?, b"!!em ksa");
    assert!(client.calls_decided()?);
    Ok(())
}

#[test]
fn a_clock_that_is_ahead() -> Result<(), Error> {
    let mut client = Client::new(&keys(), KEY, &[1; 32])?;
    let mut server = Server::new(&keys(), &[2; 32])?;
    let (call, mut held) = (client.submit(b"ask me!!", None)?, 0);
    for _ in 0..9 {
        while let Some(packet) = client.poll_transmit(NOW + 60)? {
            server.handle_packet(NOW, &packet)?;
        }
        while let Some(request) = server.next_request()? {
            server.answer(NOW, &request)?;
        }
        while let Some((_name, packet)) = server.poll_transmit()? {
            client.handle_packet(NOW + 60, &packet)?;
        }
        held += usize::from(client.state(call)? == State::Held);
        client.renew_if_held()?;
    }
    assert_eq!((held, client.state(call)?), (1, State::Done));
    Ok(())
}

#[test]
fn what_is_refused() -> Result<(), Error> {
    assert_eq!(Client::new(b"no key file", KEY, &[1; 32]).err(), Some(Error::BadKeys));
    assert_eq!(Client::new(b"", KEY, &[1; 32]).err(), Some(Error::NoKey));
    let mut client = Client::new(&keys(), KEY, &[1; 32])?;
    let mut server = Server::new(&keys(), &[2; 32])?;
    assert_eq!(client.submit(b"odd", None), Err(Error::BadBody));
    assert_eq!(client.ping(1), Err(Error::NotOpen));
    let call = client.submit(b"even", None)?;
    assert_eq!(client.take_reply(call), Err(Error::NoReply));
    assert_eq!(client.handle_packet(NOW, &[]), Err(Error::Refused(Refusal::Size)));
    assert_eq!(server.handle_packet(NOW, &[0; 104]), Err(Error::Refused(Refusal::Key)));
    assert_eq!(server.answer(NOW, b"even"), Err(Error::NotAsked));
    Ok(())
}

#[test]
fn a_busy_server() -> Result<(), Error> {
    let mut client = Client::new(&keys(), KEY, &[1; 32])?;
    let mut server = Server::new(&keys(), &[2; 32])?;
    client.submit(b"ask me!!", None)?;
    while server.ready()? == 0 {
        while let Some(packet) = client.poll_transmit(NOW)? {
            server.handle_packet(NOW, &packet)?;
        }
        while let Some((_name, packet)) = server.poll_transmit()? {
            client.handle_packet(NOW, &packet)?;
        }
    }
    assert_eq!(server.next_request()?, server.next_request()?);
    assert_eq!(server.tick(NOW), Err(Error::Busy));
    assert_eq!(server.answer(NOW, b"odd"), Err(Error::BadReply));
    server.answer(NOW, &[7; 262_144])?;
    assert_eq!(server.next_request()?, None);
    assert_eq!(server.poll_transmit()?.map(|(name, packet)| (name.key, packet.len() > 262_144)), Some((KEY, true)));
    Ok(())
}

#[test]
fn names_and_texts() {
    assert_eq!(key_id("32d1586ea457dfc8"), Some(KEY));
    assert_eq!((key_id("32d1"), key_id("+2d1586ea457dfc8")), (None, None));
    assert_eq!((Error::Busy.status(), Error::Busy.to_string().as_str()), (16, "a request waits for its answer"));
    assert!(version().contains('.') && build().contains("proved"));
}

#[test]
fn the_numbers_of_the_header() {
    let header = include_str!("../../c/kifzaro.h");
    let refused = |why| Error::Refused(why);
    let errors = [
        ("MEMORY", Error::Memory),
        ("BAD_KEYS", Error::BadKeys),
        ("NO_KEY", Error::NoKey),
        ("BAD_BODY", Error::BadBody),
        ("NO_CALL", Error::NoCall),
        ("TOO_MANY", Error::TooManyCalls),
        ("ENDED", Error::Ended),
        ("NOT_OPEN", Error::NotOpen),
        ("NOT_SENT", Error::NotSent),
        ("NO_REPLY", Error::NoReply),
        ("SPENT", Error::Spent),
        ("BUSY", Error::Busy),
        ("NOT_ASKED", Error::NotAsked),
        ("BAD_REPLY", Error::BadReply),
        ("REFUSED_SIZE", refused(Refusal::Size)),
        ("REFUSED_KEY", refused(Refusal::Key)),
        ("REFUSED_MESSAGE_KEY", refused(Refusal::MessageKey)),
        ("REFUSED_LENGTH", refused(Refusal::Length)),
        ("REFUSED_PADDING", refused(Refusal::Padding)),
    ];
    for (name, error) in errors {
        assert!(header.contains(&format!("    KF_{name} = {},", error.status())), "{name}");
    }
}

#[test]
fn a_stream_of_another_form() {
    let found = Wire::server(&b"GET / HTTP"[..]).err().map(|error| error.kind());
    assert_eq!(found, Some(ErrorKind::InvalidData));
    assert_eq!(Wire::over(&[1, 0, 16, 0][..]).receive().map_err(|error| error.kind()), Err(ErrorKind::InvalidData));
    assert_eq!(Wire::over(&[][..]).receive().map_err(|error| error.kind()), Err(ErrorKind::UnexpectedEof));
}

fn example(name: &str, words: &[&str]) -> Child {
    let tests = std::env::current_exe().expect("a test has a path");
    let file = tests.ancestors().nth(2).expect("a test stands in deps").join("examples").join(name);
    Command::new(file).args(words).stdout(Stdio::piped()).spawn().expect("an example is built beside the tests")
}

/// A server that ends with its test.
struct Running(Child);

impl Drop for Running {
    fn drop(&mut self) {
        self.0.kill().and_then(|()| self.0.wait()).map_or_else(|error| eprintln!("{error}"), |_| ());
    }
}

#[test]
fn the_examples_over_tcp() -> std::io::Result<()> {
    let file = std::env::temp_dir().join(format!("kifzaro-keys-{}", std::process::id()));
    std::fs::write(&file, keys())?;
    let file = file.to_str().expect("the temporary folder has a name in UTF-8");
    let mut server = Running(example("server", &["0", file]));
    let mut line = String::new();
    BufReader::new(server.0.stdout.take().expect("it is piped")).read_line(&mut line)?;
    let port = line.trim_start_matches("listening ").trim();
    let clients = [example("client", &[port, file, "32d1586ea457dfc8", "abcd", "efghijkl"]), example("client", &[port, file, "32d1586ea457dfc8", "1234"])];
    let told = clients.map(|client| client.wait_with_output().map(|output| output.stdout));
    std::fs::remove_file(file)?;
    let [one, other] = told;
    assert_eq!((one?, other?), (b"abcd\nefghijkl\n".to_vec(), b"1234\n".to_vec()));
    Ok(())
}
