//! Two players in one process, over a line that loses, repeats and delays datagrams: `lossy [SEED]`. Their world is a
//! ring road, and each makes its own commands, as from a mouse.

use zirmegat::{
    Address, Command, Event, Host, Join, Key, Name, Over, Run, Session, State, Terms, DATAGRAM_SIZE,
};

/// How many tics each player runs before it leaves.
const TICS: u32 = 1000;

/// How long the road is.
const LENGTH: i32 = 1_000_003;

/// A ring road with cars on it, each at a place and with a speed.
#[derive(Default, Debug, PartialEq, Clone)]
struct Road {
    cars: [(i32, i32); 4],
}

impl Road {
    fn step(&mut self, commands: &[Option<Command>; 4]) {
        for ((at, speed), command) in self.cars.iter_mut().zip(commands) {
            let Some(step) = command else { continue };
            let faster = i32::from(step.forward) - i32::from(step.turn) / 64;
            *speed = (*speed + faster).clamp(-9999, 9999);
            *at = (*at + *speed).rem_euclid(LENGTH);
        }
    }

    fn marks(&self) -> [i16; 4] {
        self.cars.map(|(at, speed)| (at ^ speed) as i16)
    }
}

/// Random numbers for the line and the players' hands.
struct Luck(u64);

impl Luck {
    fn next(&mut self) -> u32 {
        self.0 = self
            .0
            .wrapping_mul(6364136223846793005)
            .wrapping_add(1442695040888963407);
        (self.0 >> 33) as u32
    }

    fn hand(&mut self) -> Command {
        let word = self.next();
        Command {
            forward: (word % 101) as i8 - 50,
            turn: word as i16,
            ..Command::default()
        }
    }
}

/// One direction of the line: datagrams, each with when it comes.
#[derive(Default)]
struct Way {
    flying: Vec<(u32, Vec<u8>)>,
}

impl Way {
    fn send(&mut self, luck: &mut Luck, now: u32, bytes: &[u8]) {
        let copies = match luck.next() % 10 {
            0 => 0,
            1 => 2,
            _ => 1,
        };
        for _ in 0..copies {
            self.flying
                .push((now + 20 + luck.next() % 60, bytes.to_vec()));
        }
    }

    fn arrived(&mut self, now: u32) -> Vec<Vec<u8>> {
        let (here, later): (Vec<_>, Vec<_>) =
            self.flying.drain(..).partition(|(due, _)| *due <= now);
        self.flying = later;
        here.into_iter().map(|(_, bytes)| bytes).collect()
    }
}

/// A player: its session, its world at the end of the tics, and whether it is over.
struct Player {
    session: Session,
    road: Road,
    last: Option<Road>,
    over: Option<Over>,
}

impl Player {
    /// What an engine does as often as it draws.
    fn turn(&mut self, luck: &mut Luck, now: u32) -> Result<(), zirmegat::Error> {
        self.session.poll(now)?;
        while let Some(event) = self.session.event() {
            if let Event::Over(why) = event {
                self.over = Some(why);
            }
        }
        while self.session.wants_input(now) {
            self.session.give(&luck.hand(), now)?;
        }
        loop {
            match self.session.run(&self.road.marks()) {
                Run::Ran(row) => {
                    self.road.step(&row.commands);
                    if row.tic + 1 == TICS {
                        self.last = Some(self.road.clone());
                        self.session.quit(now);
                    }
                }
                Run::Inconsistent { .. } | Run::DemoFull => panic!("the worlds differ"),
                _ => return Ok(()),
            }
        }
    }
}

fn main() -> Result<(), zirmegat::Error> {
    let mut luck = Luck(
        std::env::args()
            .nth(1)
            .and_then(|word| word.parse().ok())
            .unwrap_or(1),
    );
    // the key comes from a file, and random bytes from the system
    let key = Some(Key([7; 32]));
    let places = [Address([1; 32]), Address([2; 32])];
    let host = Host {
        terms: Terms::default(),
        key,
        random: [luck.next() as u8 | 1; 32],
        name: Name::from("Ann"),
    };
    let join = Join {
        host: places[0],
        key,
        random: [luck.next() as u8 | 1; 32],
        identity: [0; 16],
        name: Name::from("Bob"),
        seat: None,
        players: None,
    };
    let mut players = [Session::host(&host)?, Session::join(&join, 0)?].map(|session| Player {
        session,
        road: Road::default(),
        last: None,
        over: None,
    });
    let mut ways = [Way::default(), Way::default()];
    let mut bytes = [0; DATAGRAM_SIZE];
    let mut now = 0;
    while players.iter().any(|player| player.over.is_none()) {
        for me in 0..2 {
            for datagram in ways[1 - me].arrived(now) {
                players[me].session.receive(&places[1 - me], &datagram, now);
                while let Some((_, reply)) = players[me].session.transmit(&mut bytes) {
                    ways[me].send(&mut luck, now, reply);
                }
            }
            players[me].turn(&mut luck, now)?;
            while let Some((_, datagram)) = players[me].session.transmit(&mut bytes) {
                ways[me].send(&mut luck, now, datagram);
            }
        }
        now += 5;
        assert!(now < 200_000, "the game does not go on");
    }
    let [one, other] = players;
    let State { made, ran, .. } = one.session.state();
    assert_eq!(one.last, other.last);
    let (one_demo, other_demo) = (one.session.demo(), other.session.demo());
    let tics = 13 + TICS as usize * 2 * 5;
    assert_eq!(one_demo[9..tics], other_demo[9..tics]);
    println!(
        "{TICS} tics in {} s, {made} made and {ran} ran, {:?}",
        now / 1000,
        one.last.expect("the end").cars
    );
    Ok(())
}
