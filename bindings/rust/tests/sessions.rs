//! What sessions, keys, names, addresses and demos return.

use std::net::SocketAddr;
use zirmegat::*;

fn host(terms: Terms) -> Host {
    Host {
        terms,
        key: Some(Key([3; 32])),
        random: [1; 32],
        name: Name::from("Ann"),
    }
}

fn join(seat: Option<u8>) -> Join {
    Join {
        host: Address([1; 32]),
        key: Some(Key([3; 32])),
        random: [2; 32],
        identity: [0; 16],
        name: Name::from("Bob"),
        seat,
        players: None,
    }
}

#[test]
fn keys_have_one_text() {
    let key = Key(std::array::from_fn(|k| k as u8 * 7));
    let text = key.to_text();
    assert_eq!(text.len(), 65);
    assert_eq!(text.parse(), Ok(key));
    assert_eq!(text.to_uppercase().parse(), Ok(key));
    assert_eq!(text.trim_end().parse::<Key>(), Err(Error::Text));
    assert_eq!("".parse::<Key>(), Err(Error::Text));
    assert_eq!(format!("{:064}\n", 0).parse::<Key>(), Err(Error::Key));
    assert_eq!(format!("{key:?}"), "Key(..)");
}

#[test]
fn names_end_with_a_character() {
    assert_eq!(Name::from("Ann").to_string(), "Ann");
    assert_eq!(
        Name::from("0123456789abcdefgh").to_string(),
        "0123456789abcdef"
    );
    assert_eq!(
        Name::from("0123456789abcde\u{e9}").to_string(),
        "0123456789abcde"
    );
    assert_eq!(Name::default().to_string(), "");
}

#[test]
fn addresses_come_back() {
    for text in ["127.0.0.1:5029", "[::1]:80", "[2001:db8::7]:65535"] {
        let at: SocketAddr = text.parse().unwrap();
        assert_eq!(SocketAddr::from(Address::from(at)), at);
    }
}

#[test]
fn faults_have_names() {
    let fault = |change: fn(&mut Host)| {
        let mut host = host(Terms::default());
        change(&mut host);
        Session::host(&host).map(drop)
    };
    assert_eq!(fault(|_| ()), Ok(()));
    assert_eq!(fault(|h| h.key = None), Ok(()));
    assert_eq!(fault(|h| h.key = Some(Key([0; 32]))), Err(Error::Key));
    assert_eq!(fault(|h| h.random = [0; 32]), Err(Error::Random));
    assert_eq!(fault(|h| h.terms.players = 5), Err(Error::Players));
    assert_eq!(fault(|h| h.terms.window = 13), Err(Error::Window));
    assert_eq!(fault(|h| h.terms.rate = 0), Err(Error::Rate));
    assert_eq!(fault(|h| h.terms.limit = 1023), Err(Error::Limit));
    assert_eq!(
        fault(|h| h.terms.policy = Policy::End(2)),
        Err(Error::Policy)
    );
    assert_eq!(fault(|h| h.terms.settings.skill = 5), Err(Error::Skill));
    assert_eq!(fault(|h| h.terms.settings.map = 0), Err(Error::Map));
    assert_eq!(Session::join(&join(Some(4)), 0).map(drop), Err(Error::Seat));
    assert_eq!(
        Error::Seat.to_string(),
        "there are seats 1 to 3 for those who join"
    );
}

#[test]
fn a_lobby_is_told() {
    let mut terms = Terms {
        players: 3,
        policy: Policy::GiveUp(9),
        ..Terms::default()
    };
    terms.own[255] = 7;
    let mut ann = Session::host(&host(terms.clone())).unwrap();
    let mut bob = Session::join(&join(Some(2)), 0).unwrap();
    let places = [Address([1; 32]), Address([2; 32])];
    let mut bytes = [0; DATAGRAM_SIZE];
    assert_eq!(bob.state().stage, Stage::Calling);
    assert_eq!(bob.state().terms, None);
    let mut told = Vec::new();
    for now in (0..3000).step_by(10) {
        ann.poll(now).unwrap();
        bob.poll(now).unwrap();
        while let Some((_, datagram)) = bob.transmit(&mut bytes) {
            ann.receive(&places[1], datagram, now);
        }
        while let Some((to, datagram)) = ann.transmit(&mut bytes) {
            assert_eq!(to, places[1]);
            bob.receive(&places[0], datagram, now);
        }
        told.extend(bob.event());
    }
    assert_eq!(told, [Event::Seated(2)]);
    assert_eq!(bob.state().stage, Stage::Seated);
    assert_eq!(bob.state().terms, Some(terms));
    assert_eq!(bob.state().me, 2);
    let there = ann.player(2, 3000);
    assert_eq!(
        (there.seat, there.name.to_string()),
        (Seat::There, "Bob".into())
    );
    assert_eq!(there.address, Some(places[1]));
    assert_eq!((there.standing, there.end), (Standing::None, None));
    assert_eq!(bob.player(1, 3000).seat, Seat::Free);
    assert_eq!(ann.give_up(1, 3000), Err(Error::NotNow));
    assert_eq!(ann.give(&Command::default(), 3000), Err(Error::NotNow));
    assert_eq!(ann.run(&[0; 4]), Run::NotPlaying);
    assert_eq!(ann.demo(), []);
    ann.kick(2);
    let mut why = None;
    for now in (3000..9000).step_by(10) {
        ann.poll(now).unwrap();
        bob.poll(now).unwrap();
        while let Some((_, datagram)) = bob.transmit(&mut bytes) {
            ann.receive(&places[1], datagram, now);
        }
        while let Some((_, datagram)) = ann.transmit(&mut bytes) {
            bob.receive(&places[0], datagram, now);
        }
        while let Some(event) = bob.event() {
            if let Event::Over(over) = event {
                why = Some(over);
            }
        }
    }
    assert_eq!(why, Some(Over::Kicked));
}

#[test]
fn demos_are_read_and_upgraded() {
    assert_eq!(Demo::read(&[]).map(drop), Err(Error::DemoShort));
    let mut bytes = vec![109, 2, 1, 1, 0, 0, 0, 0, 1, 1, 1, 0, 0];
    assert_eq!(Demo::read(&bytes).map(drop), Err(Error::DemoMarker));
    bytes.extend([25, 0, 1, 0, 50, 0, 0, 1, 128, 9]);
    let demo = Demo::read(&bytes).unwrap();
    let facts = demo.facts();
    assert_eq!((facts.tics, facts.cut, facts.after), (1, 0, 1));
    assert_eq!((facts.version, facts.view, facts.start.skill), (109, 1, 2));
    assert_eq!(facts.present, [true, true, false, false]);
    let rows: Vec<Row> = demo.rows().collect();
    assert_eq!(rows.len(), 1);
    let first = rows[0].commands[0].unwrap();
    assert_eq!(
        (first.forward, first.turn, rows[0].commands[2]),
        (25, 256, None)
    );
    assert_eq!(demo.row(1), None);
    let anew = upgrade(&bytes, 1024).unwrap();
    assert_eq!(Demo::read(&anew).unwrap().rows().collect::<Vec<_>>(), rows);
    assert_eq!(upgrade(&bytes, 1023), Err(Error::Limit));
    assert_eq!(upgrade(&bytes, usize::MAX), Err(Error::Limit));
}

#[test]
fn keys_make_commands() {
    let mut hold = 0;
    let keys = Keys::FORWARD | Keys::LEFT | Keys::SPEED | Keys::weapon(3);
    let command = Command::from_keys(&mut hold, keys);
    assert_eq!((hold, command.turn, command.forward), (1, 320, 50));
    assert_eq!(command.buttons, 4 | 2 << 3);
    assert_eq!(Keys::weapon(9), Keys(0));
}

#[test]
fn the_version_is_the_headers() {
    assert_eq!(version() / 65536, 1);
}
