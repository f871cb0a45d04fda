//! Times calls through both ends in one program: talk N. It writes the microseconds of a call, by the clock.
use kifzaro::{seed, Client, Server, State};
use std::{error::Error, time::Instant};

fn call_once(client: &mut Client, server: &mut Server) -> Result<Vec<u8>, Box<dyn Error>> {
    let call = client.submit(b"ask me!!", None)?;
    while client.state(call)? != State::Done {
        while let Some(packet) = client.poll_transmit(1_000_000)? {
            server.handle_packet(1_000_000, &packet)?;
        }
        while let Some(request) = server.next_request()? {
            server.answer(1_000_000, &request)?;
        }
        while let Some((_name, packet)) = server.poll_transmit()? {
            client.handle_packet(1_000_000, &packet)?;
        }
    }
    Ok(client.take_reply(call)?)
}

fn main() -> Result<(), Box<dyn Error>> {
    let calls: u32 = std::env::args().nth(1).ok_or("talk N")?.parse()?;
    let digits: String = (0..=255u8).map(|byte| format!("{byte:02x}")).collect();
    let keys = format!("perm {digits}").into_bytes();
    let (mut client, mut server) = (Client::new(&keys, 0xc8df_57a4_6e58_d132, &seed()?)?, Server::new(&keys, &seed()?)?);
    let began = Instant::now();
    for _ in 0..calls {
        call_once(&mut client, &mut server)?;
    }
    println!("{:.2}", began.elapsed().as_secs_f64() * 1e6 / f64::from(calls));
    Ok(())
}
