//! Threads of one service, with no lock: each is a worker of the policy, makes, reads and frees blocks
//! of its tenant, and hands each third one to the other thread, which frees it from afar. In the end
//! the service becomes a core, in which the rest is told.

use heapguard::{
    Arena, Freed, Handle, Refusal, Rule, Segment, Service, ServiceWorker, Tenant, Worker,
};
use std::sync::mpsc::{channel, Receiver, Sender};
use std::thread;

const BLOCKS: u64 = 300;
const MAIN: Arena = Arena(0);

const POLICY: &str = r#"version = 1
workers = 2
tenant = [ {name = "red", limit = 65536}, {name = "blue", limit = 65536} ]
arena = [ {name = "main", segments = 2} ]
grant = [ {owner = "red", to = "blue", rights = ["free"]} ]
"#;

/// What a thread saw.
#[derive(Default)]
struct Seen {
    read_back: u64,
    freed_here: u64,
    freed_afar: u64,
    refused_afar: u64,
    stale: u64,
}

struct Server {
    worker: ServiceWorker,
    tenant: Tenant,
}

impl Server {
    /// A block that holds a value, read back.
    fn make(&mut self, value: u64, seen: &mut Seen) -> Result<Handle, Refusal> {
        let block = self.worker.alloc(self.tenant, MAIN, 16)?;
        self.worker.write(self.tenant, block, 1, value)?;
        let read = self.worker.read(self.tenant, block, 1)?;
        seen.read_back += u64::from(read == value);
        Ok(block)
    }

    fn free(&mut self, block: Handle, seen: &mut Seen) -> Result<(), Refusal> {
        if self.worker.free(self.tenant, block)? == Freed::Here {
            seen.freed_here += 1;
        }
        let again = self.worker.free(self.tenant, block);
        seen.stale += u64::from(again == Err(Refusal::Denied(Rule::AlreadyFreed)));
        Ok(())
    }

    /// Frees what the other thread handed over. Its segment is the other worker's, so the block
    /// goes into this one's hand, and from there to that worker.
    fn free_afar(&mut self, block: Handle, seen: &mut Seen) -> Result<(), Refusal> {
        match self.worker.free(self.tenant, block) {
            Ok(_) => {
                seen.freed_afar += 1;
                self.worker.deliver()
            }
            Err(Refusal::Denied(Rule::NotGranted)) => {
                seen.refused_afar += 1;
                Ok(())
            }
            Err(other) => Err(other),
        }
    }

    fn work(
        mut self,
        to_other: Sender<Handle>,
        from_other: Receiver<Handle>,
    ) -> Result<Seen, Refusal> {
        let mut seen = Seen::default();
        for n in 0..BLOCKS {
            let block = self.make(n, &mut seen)?;
            if n % 3 == 0 {
                to_other.send(block).unwrap();
            } else {
                self.free(block, &mut seen)?;
            }
        }
        drop(to_other);
        for block in from_other {
            self.free_afar(block, &mut seen)?;
        }
        self.worker.leave().map_err(|left| left.why)?;
        Ok(seen)
    }
}

fn main() -> Result<(), Box<dyn std::error::Error>> {
    println!("version 3: {}", Service::open("version = 3").err().unwrap());
    let mut service = Service::open(POLICY)?;
    let names = ["red", "blue"];
    let tenants = names.map(|name| service.tenant(name).unwrap());
    let mut servers = Vec::new();
    for (number, tenant) in (0..).zip(tenants) {
        let mut worker = service.worker(Worker(number))?.unwrap();
        worker.refill(MAIN)?;
        servers.push(Server { worker, tenant });
    }

    let (to_blue, from_red) = channel();
    let (to_red, from_blue) = channel();
    let ends = [(to_blue, from_blue), (to_red, from_red)];
    let threads: Vec<_> = servers
        .into_iter()
        .zip(ends)
        .map(|(server, (to_other, from_other))| {
            thread::spawn(move || server.work(to_other, from_other))
        })
        .collect();
    for (name, thread) in names.into_iter().zip(threads) {
        let seen = thread.join().unwrap()?;
        println!(
            "{name} read back {}, freed {} here and {} afar, was refused {} afar, and {} twice",
            seen.read_back, seen.freed_here, seen.freed_afar, seen.refused_afar, seen.stale
        );
    }

    let mut core = service.close()?;
    let (worker, red) = (Worker(0), tenants[0]);
    for _ in 0..core.segments() {
        core.refill(worker, MAIN)?;
    }
    for segment in 0..core.segments() {
        let came = core.take(worker, Segment(segment))?;
        println!("{came} came home to segment {segment}");
    }
    core.collect(worker)?;
    let block = core.alloc(worker, red, MAIN, 65536)?;
    core.write(worker, red, block, 8191, 7)?;
    println!(
        "the last word of a block of 64 KiB is {}",
        core.read(worker, red, block, 8191)?
    );
    Ok(())
}
