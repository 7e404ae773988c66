use fdb_read_version::{Ask, Chain, GrvQueue, Priority, QueueConfig, Request};
use std::error::Error;

fn main() -> Result<(), Box<dyn Error>> {
    let mut chain = Chain::new(100, 200, 2)?;
    println!("{:?}", chain.ask(Ask { proxy: 0, num: 1, processed: 0, at: 5 })?);
    println!("{:?}", chain.ask(Ask { proxy: 1, num: 7, processed: 0, at: 5 }));
    let mut queue = GrvQueue::new(QueueConfig { normal: 100, batch: 10, room: 50 })?;
    queue.offer(Request { priority: Priority::Default, count: 3, payload: 17 })?;
    println!("{:?}", queue.window(1000)?.started);
    Ok(())
}
