//! Calls over TCP: client PORT KEY_FILE KEY BODY..
use kifzaro::{key_id, now, seed, Client, Wire};
fn main() -> Result<(), Box<dyn std::error::Error>> {
    let words: Vec<String> = std::env::args().skip(1).collect();
    let mut client = Client::new(&std::fs::read(&words[1])?, key_id(&words[2]).ok_or("no key's identifier")?, &seed()?)?;
    let calls = words[3..].iter().map(|body| client.submit(body.as_bytes(), None)).collect::<Result<Vec<_>, _>>()?;
    let mut wire = Wire::client(std::net::TcpStream::connect(("127.0.0.1", words[0].parse()?))?)?;
    while !client.calls_decided()? {
        while let Some(packet) = client.poll_transmit(now())? { wire.send(&packet)? }
        client.handle_packet(now(), &wire.receive()?)?;
        client.renew_if_held()?;
    }
    for call in calls { println!("{}", String::from_utf8_lossy(&client.take_reply(call)?)) }
    Ok(())
}
