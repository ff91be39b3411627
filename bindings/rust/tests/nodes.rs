//! Games of two links, and of two locksteps.

use std::thread;
use zirmegat::parts::*;
use zirmegat::*;

fn run<K>(node: &mut Node<K>, world: &mut [i16; 4]) -> Run {
    loop {
        match node.run(world) {
            Run::Ran(row) => {
                for (at, command) in world.iter_mut().zip(row.commands) {
                    *at = at.wrapping_add(command.map_or(0, |c| c.turn ^ i16::from(c.chat)));
                }
            }
            run => return run,
        }
    }
}

fn command(tic: u32, me: usize) -> Command {
    Command {
        turn: tic as i16 * 31,
        chat: me as u8 + 65,
        ..Command::default()
    }
}

#[test]
fn links_play() {
    let new = |me| Node::link(&Config::new(2, me), &Key([5; 32]), &[9; 16]).unwrap();
    let mut nodes = [new(0), new(1)];
    let mut worlds = [[0; 4]; 2];
    let mut bytes = [0; DATAGRAM_SIZE];
    for tick in 0..300u32 {
        for me in 0..2 {
            if let Err(why) = nodes[me].give(&command(tick, me)) {
                assert_eq!(why, Error::Full);
            }
            let later = nodes[me].tick();
            assert!((-9..=41).contains(&later));
            if tick % 7 != 3 && !nodes[me].player(1 - me as u8).is_resting {
                let datagram = nodes[me]
                    .datagram(1 - me as u8, &mut bytes)
                    .unwrap()
                    .to_vec();
                assert_eq!(nodes[1 - me].receive(&datagram), Received::Heard(me as u8));
                let mut altered = datagram.clone();
                altered[40] ^= 1;
                assert!(matches!(
                    nodes[1 - me].receive(&altered),
                    Received::Unopened(Unopened::Tag)
                ));
            }
            run(&mut nodes[me], &mut worlds[me]);
            if nodes[me].catch_up().is_ok() {
                run(&mut nodes[me], &mut worlds[me]);
            }
        }
    }
    let state = nodes[0].state();
    assert!(state.ran > 250 && state.phase == Phase::Playing && state.refused > 0);
    let ran = state.ran.min(nodes[1].state().ran) as usize;
    let demos = [nodes[0].demo(), nodes[1].demo()];
    assert_eq!(demos[0][9..13 + 10 * ran], demos[1][9..13 + 10 * ran]);
    assert_eq!(nodes[0].give_up(1), GivenUp::Decided);
    assert_eq!(nodes[0].give_up(1), GivenUp::Already);
    assert_eq!(nodes[0].give_up(0), GivenUp::NotAPlayer);
    assert!(nodes[0].player(1).given_up);
    // another thread may go on with it
    let [mut node, _] = nodes;
    let quit = thread::spawn(move || (node.quit(), node.quit(), node.state().cause));
    assert_eq!(
        quit.join().unwrap(),
        (Ok(()), Err(Error::NotNow), Some(Cause::Quit))
    );
}

#[test]
fn locksteps_play() {
    let new = |me| Node::lockstep(&Config::new(2, me)).unwrap();
    let mut nodes = [new(0), new(1)];
    let mut worlds = [[0; 4]; 2];
    let mut bytes = [0; PACKET_SIZE];
    assert_eq!(nodes[1].state().phase, Phase::Listening);
    assert_eq!(nodes[1].state().settings, None);
    assert_eq!(nodes[1].packet(0, &mut bytes), None);
    assert_eq!(nodes[0].receive(1, &[0; 7]), Heard::Dropped(Dropped::Short));
    let mut started = 0;
    for tick in 0..300u32 {
        for me in 0..2 {
            let state = nodes[me].state();
            if state.can_give {
                nodes[me].give(&command(tick, me)).unwrap();
            }
            let aim = nodes[me].aim(1 - me as u8);
            let packet = nodes[me]
                .packet(1 - me as u8, &mut bytes)
                .map(<[u8]>::to_vec);
            assert_eq!(aim.is_some(), packet.is_some());
            if let Some(packet) = packet.filter(|_| tick % 5 != 2) {
                let heard = nodes[1 - me].receive(me as u8, &packet);
                started += u32::from(heard == Heard::Started);
            }
            run(&mut nodes[me], &mut worlds[me]);
        }
    }
    assert_eq!(started, 2);
    assert!(nodes[0].state().ran > 100);
    assert_eq!(nodes[1].state().settings, Some(Settings::default()));
    // a world that differs is found out
    worlds[1][0] ^= 1;
    let mut found = false;
    for tick in 0..100u32 {
        for me in 0..2 {
            if nodes[me].state().can_give {
                nodes[me].give(&command(tick, me)).unwrap();
            }
            if let Some(packet) = nodes[me].packet(1 - me as u8, &mut bytes) {
                let packet = packet.to_vec();
                nodes[1 - me].receive(me as u8, &packet);
            }
            found |= matches!(
                run(&mut nodes[me], &mut worlds[me]),
                Run::Inconsistent { .. }
            );
        }
    }
    assert!(found);
}

#[test]
fn faults_have_names() {
    let with = |change: fn(&mut Config)| {
        let mut config = Config::new(2, 0);
        change(&mut config);
        Node::lockstep(&config).map(drop)
    };
    assert_eq!(with(|_| ()), Ok(()));
    assert_eq!(with(|c| c.me = 2), Err(Error::Me));
    assert_eq!(with(|c| c.players = 1), Err(Error::Players));
    assert_eq!(with(|c| c.window = 0), Err(Error::Window));
    assert_eq!(with(|c| c.limit = 0), Err(Error::Limit));
    assert_eq!(with(|c| c.settings.episode = 4), Err(Error::Episode));
    let zeros = Node::link(&Config::new(2, 0), &Key([0; 32]), &[1; 16]);
    assert_eq!(zeros.map(drop), Err(Error::Key));
}

#[test]
fn packets_are_read_and_written() {
    let command = SentCommand {
        turn: -640,
        mark: 12345,
        forward: 50,
        side: -3,
        chat: 7,
        buttons: 1,
    };
    let packet = Packet {
        flags: RETRANSMIT,
        ask: 9,
        start: 5,
        player: 1,
        commands: vec![command; 12],
    };
    let bytes = packet.encode().unwrap();
    assert_eq!(bytes.len(), PACKET_SIZE);
    assert_eq!(bytes[3] >> 4, RETRANSMIT);
    assert_eq!(bytes[4..8], [9, 5, 1, 12]);
    assert_eq!(bytes[8..16], [50, 253, 0x80, 0xfd, 0x39, 0x30, 7, 1]);
    assert_eq!(Packet::decode(&bytes), Ok(packet.clone()));
    assert_eq!(Packet::decode(&bytes[..7]), Err(PacketError::Short));
    assert_eq!(Packet::decode(&bytes[..103]), Err(PacketError::Length));
    let mut wrong = bytes.clone();
    wrong[9] ^= 1;
    assert_eq!(Packet::decode(&wrong), Err(PacketError::Sum));
    wrong[7] = 13;
    assert_eq!(Packet::decode(&wrong), Err(PacketError::Many));
    let with = |flags, count| {
        Packet {
            flags,
            commands: vec![command; count],
            ..packet.clone()
        }
        .encode()
    };
    assert!(with(15, 0).is_some());
    assert_eq!(with(16, 0), None);
    assert_eq!(with(0, 13), None);
    assert_eq!(with(0, 256), None);
}
