//! Memory that is refused to the library. To be linked with an archive that has bindings/c/tests/failing.c in place of
//! heap.c: the feature `_failing` says so, and bindings/test makes it.

use std::ffi::{c_long, c_ulong};
use zirmegat::parts::{Config, Node};
use zirmegat::{upgrade, Demo, Error, Host, Join, Key, Name, Session, Terms};

mod failing {
    use std::ffi::{c_long, c_ulong};

    extern "C" {
        pub fn fail_once(n: c_ulong);
        pub fn blocks_held() -> c_long;
    }
}

/// The nth request from now on for the library's memory is refused, and no other; 0 for none.
fn fail_once(n: c_ulong) {
    // SAFETY: it asks for nothing, and only the one test here makes requests.
    unsafe { failing::fail_once(n) }
}

/// How many blocks the library holds.
fn blocks_held() -> c_long {
    // SAFETY: as above.
    unsafe { failing::blocks_held() }
}

/// Refuses each of a call's requests in turn, and returns how many there are. What was asked for before is given back.
fn refused<T>(call: impl Fn() -> Result<T, Error>) -> c_ulong {
    let before = blocks_held();
    for request in 1.. {
        fail_once(request);
        let made = call();
        fail_once(0);
        match made {
            Ok(made) => {
                drop(made);
                assert_eq!(blocks_held(), before);
                return request - 1;
            }
            Err(error) => assert_eq!(error, Error::Memory, "request {request}"),
        }
        assert_eq!(blocks_held(), before, "request {request}");
    }
    unreachable!()
}

/// A demo of one player, with no tics.
const DEMO: [u8; 14] = [111, 2, 1, 1, 0, 0, 0, 0, 0, 1, 0, 0, 0, 0x80];

// The tests are one, since what is refused is refused to every thread.
#[test]
fn refused_memory_is_told_and_given_back() {
    let key = Key([1; 32]);
    let host = Host {
        terms: Terms::default(),
        key: Some(key),
        random: [1; 32],
        name: Name::from("Ann"),
    };
    assert!(refused(|| Session::host(&host)) > 0);
    let join = Join {
        host: zirmegat::Address([1; 32]),
        key: Some(key),
        random: [2; 32],
        identity: [0; 16],
        name: Name::from("Bob"),
        seat: None,
        players: None,
    };
    assert!(refused(|| Session::join(&join, 0)) > 0);
    let config = Config::new(2, 1);
    assert!(refused(|| Node::lockstep(&config)) > 0);
    assert!(refused(|| Node::link(&config, &key, &[2; 16])) > 0);
    assert!(refused(|| Demo::read(&DEMO)) > 0);
    // a copy of the demo, and the room of the new one
    assert_eq!(refused(|| upgrade(&DEMO, 1024)), 2);
    assert_eq!(upgrade(&DEMO, 1024), Ok(DEMO.to_vec()));
}
