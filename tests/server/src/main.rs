//! Sends requests to the example server, and holds its answers against the rendering's.
//!
//! server PROGRAM [SEED] [--requests R]
//!
//! Requests are for all six calls. All expected words and outputs are the rendering's, made before the server is
//! started; this program does not link the library. While it runs, the server's memory is looked at: once it has met a
//! quarter of the requests, it must not grow.

mod calls;
mod pool;
mod process;

use calls::CALLS;
use pool::{pool, Request};
use process::{Memory, Server};
use reference::cases::Random;
use std::process::exit;
use std::time::{Instant, SystemTime, UNIX_EPOCH};

struct Arguments {
    program: String,
    seed: u64,
    requests: usize,
}

fn arguments() -> Option<Arguments> {
    let mut words = std::env::args().skip(1);
    let mut arguments = Arguments {
        program: words.next()?,
        seed: SystemTime::now()
            .duration_since(UNIX_EPOCH)
            .ok()?
            .as_micros() as u64,
        requests: 100_000,
    };
    while let Some(word) = words.next() {
        match word.as_str() {
            "--requests" => arguments.requests = words.next()?.parse().ok()?,
            seed => arguments.seed = seed.parse().ok()?,
        }
    }
    Some(arguments)
}

fn main() {
    let Some(arguments) = arguments() else {
        eprintln!("usage: server PROGRAM [SEED] [--requests R]");
        exit(2);
    };
    println!("seed {}", arguments.seed);
    if let Err(what) = run(&arguments) {
        println!("FAILED: {what}");
        exit(1);
    }
}

fn run(arguments: &Arguments) -> Result<(), String> {
    let mut random = Random::new(arguments.seed);
    let pool = pool(&mut random);
    table(&pool);
    // Each request once, so that none is missed, and then at random.
    let mut order: Vec<usize> = (0..pool.len()).collect();
    while order.len() < arguments.requests {
        let largest = random.below(40) == 0;
        let from = pool::LONGEST + if largest { 0 } else { pool::LARGE };
        order.push(from + random.below(pool.len() - from));
    }
    let start = Instant::now();
    let memory = whole_requests(&arguments.program, &pool, &order)?;
    let taken = start.elapsed();
    unread_requests(&arguments.program, &pool, &mut random)?;
    for (number, call) in CALLS.iter().enumerate() {
        let of_call = order.iter().filter(|index| pool[**index].call == number);
        print!("{}: {}  ", call.name, of_call.count());
    }
    println!();
    println!(
        "server: {} calls by two threads, from {} requests, every word and every output the rendering's, in {:.1} s",
        order.len(),
        pool.len(),
        taken.as_secs_f64()
    );
    println!("memory: {memory}");
    Ok(())
}

/// How many requests of the pool get each number, for each call.
fn table(pool: &[Request]) {
    print!("{:8}", "number");
    (0..19).for_each(|number| print!("{number:>5}"));
    println!();
    for (call, named) in CALLS.iter().enumerate() {
        print!("{:8}", named.name);
        for number in 0..19 {
            let is = |request: &&Request| request.call == call && request.word >> 16 == number;
            print!("{:>5}", pool.iter().filter(is).count());
        }
        println!();
    }
}

/// Sends the requests, one after another without waiting, and compares the answers. Gives the memory.
fn whole_requests(program: &str, pool: &[Request], order: &[usize]) -> Result<String, String> {
    let mut server = Server::start(program)?;
    let mut input = server.input();
    let memory = std::thread::scope(|scope| {
        let sender = scope.spawn(move || {
            // Where the server has left, the answers tell.
            let _ = order
                .iter()
                .all(|index| process::send(&mut input, &pool[*index].bytes));
            input
        });
        let compared = answers(&mut server, pool, order);
        if compared.is_err() {
            // So that the sender does not wait for it.
            server.end();
        }
        // The input ends only here, so that the server is there to be looked at until now.
        drop(sender.join());
        compared
    })?;
    if server.word().is_some() {
        return Err("an answer too many".to_string());
    }
    let [start, quarter, end] = memory;
    if end.threads != 3 {
        return Err(format!("{} threads, not two and the first", end.threads));
    }
    match server.status()? {
        0 => Ok(format!(
            "resident set {} kB after the first answer, {} kB after a quarter, {} kB at the end; \
             of these its own {}, {} and {} kB",
            start.resident, quarter.resident, end.resident, start.own, quarter.own, end.own
        )),
        status => Err(format!("the server left with {status}")),
    }
}

/// Compares the answers, and looks at the memory: after the first answer, after a quarter of them, and then often, to
/// the end.
fn answers(server: &mut Server, pool: &[Request], order: &[usize]) -> Result<[Memory; 3], String> {
    let mut memory = Vec::new();
    for (number, index) in order.iter().enumerate() {
        let request = &pool[*index];
        compare(server, request)
            .map_err(|what| format!("request {number} ({}): {what}", request.what))?;
        let quarter = order.len() / 4;
        if number == 0
            || number >= quarter && (number - quarter) % 128 == 0
            || number + 1 == order.len()
        {
            memory.push(server.memory()?);
            let now = memory[memory.len() - 1];
            if memory.len() > 2 && now.own > memory[1].own {
                return Err(format!(
                    "after {number} requests memory is {now:?}, and was {:?}",
                    memory[1]
                ));
            }
        }
    }
    match memory[..] {
        [start, quarter, .., end] => Ok([start, quarter, end]),
        _ => Err("too few requests to see the memory".to_string()),
    }
}

/// Reads an answer, and compares it with the request's.
fn compare(server: &mut Server, request: &Request) -> Result<(), String> {
    let word = server.word().ok_or("no answer")?;
    if word != request.word {
        return Err(format!(
            "{} place {}, the rendering answers {} place {}",
            word >> 16,
            word & 0xFFFF,
            request.word >> 16,
            request.word & 0xFFFF
        ));
    }
    match server.output(request.output.len()) {
        Some(output) if output == request.output => Ok(()),
        Some(_) => Err("another output".to_string()),
        None => Err("the output is cut".to_string()),
    }
}

/// A request that is cut anywhere, or that names no call, after a whole one: the whole one is answered, and the server
/// leaves with 1.
fn unread_requests(program: &str, pool: &[Request], random: &mut Random) -> Result<(), String> {
    let small = &pool[pool::LONGEST + pool::LARGE..];
    for round in 0..20 {
        let whole = &small[random.below(small.len())];
        let other = &small[random.below(small.len())].bytes;
        let mut unread = other[..1 + random.below(other.len() - 1)].to_vec();
        if round < 2 {
            unread[0] = [CALLS.len() as u8, 0xFF][round];
        }
        let mut server = Server::start(program)?;
        let mut input = server.input();
        if !process::send(&mut input, &whole.bytes) {
            return Err("the server does not read".to_string());
        }
        // It may have left before it has taken all of these.
        process::send(&mut input, &unread);
        drop(input);
        let cut = |what: &str| format!("after {} bytes that are no request: {what}", unread.len());
        compare(&mut server, whole).map_err(|what| cut(&what))?;
        if server.word().is_some() {
            return Err(cut("an answer too many"));
        }
        if server.status()? != 1 {
            return Err(cut("status is not 1"));
        }
    }
    Ok(())
}
