//! Clients of the server: they connect, ask, read the answers and hang up, some of them early.
use super::{Answer, Connection, Event, Numbers};
use std::iter::Sum;
use std::sync::mpsc::{self, Receiver, Sender};
use std::sync::{Arc, Barrier};

/// One connection in eight hangs up early.
const HANGS_UP: usize = 8;

/// So many connections at once, requests of each, and times that each connects.
pub struct Load {
    connections: u32,
    jobs: u32,
    rounds: u32,
    /// All clients and the server meet here twice, once all connections of the first round are
    /// open.
    pub meet: Barrier,
}

impl Load {
    /// Each has its share of the connections.
    pub const CLIENTS: usize = 4;

    pub fn new(connections: u32, jobs: u32, rounds: u32) -> Load {
        Load {
            connections,
            jobs,
            rounds,
            meet: Barrier::new(Load::CLIENTS + 1),
        }
    }

    /// How many requests a round has.
    pub fn requests(&self) -> u64 {
        u64::from(self.connections) * u64::from(self.jobs)
    }
}

/// How many requests were answered to a client, and how many it hung up on.
#[derive(Default)]
pub struct Asked {
    pub answered: u64,
    pub hung_up: u64,
}

impl Sum for Asked {
    fn sum<I: Iterator<Item = Asked>>(all: I) -> Asked {
        all.fold(Asked::default(), |sum, asked| Asked {
            answered: sum.answered + asked.answered,
            hung_up: sum.hung_up + asked.hung_up,
        })
    }
}

/// A client: in each round it opens its connections, asks through all of them, and then reads the
/// answers.
pub fn ask(load: &Load, client: usize, numbers: &Arc<Numbers>, network: &Sender<Event>) -> Asked {
    let mut asked = Asked::default();
    let send = |event| network.send(event).expect("a server");
    for round in 0..load.rounds as usize {
        let mine = (client..load.connections as usize).step_by(Load::CLIENTS);
        let open = mine.map(|_| {
            let (sender, answers) = mpsc::channel();
            let connection = Connection::new(numbers, sender);
            (0..load.jobs).for_each(|number| send(Event::Request(Arc::clone(&connection), number)));
            (connection, answers)
        });
        let open: Vec<_> = open.collect();
        if round == 0 {
            load.meet.wait();
            load.meet.wait();
        }
        for (at, (connection, answers)) in open.into_iter().enumerate() {
            if (at + round) % HANGS_UP == 0 {
                asked.hung_up += u64::from(load.jobs);
            } else {
                read_answers(&answers, load.jobs);
                asked.answered += u64::from(load.jobs);
            }
            drop(answers);
            send(Event::Gone(connection));
        }
    }
    asked
}

/// Each request has one answer.
fn read_answers(answers: &Receiver<Answer>, jobs: u32) {
    let answers = answers.iter().take(jobs as usize);
    let mut numbers: Vec<u32> = answers
        .map(|(Answer::Served(number) | Answer::Cancelled(number))| number)
        .collect();
    numbers.sort_unstable();
    assert!(numbers.into_iter().eq(0..jobs));
}
