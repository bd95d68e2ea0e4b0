//! Worked frames, and each fault that a node can be brought to.
use super::*;

const OWN: Mac = [2, 0, 0, 0, 0, 1];
const OTHER: Mac = [2, 0, 0, 0, 0, 2];

fn node(role: Role) -> Node {
    Node::new(&Setup::new(role, OWN, Key::Fixed)).unwrap()
}

fn plain() -> Vec<u8> {
    let mut frame = [OWN, OTHER].concat();
    frame.extend([8, 0]);
    frame.resize(60, 0);
    frame
}

fn copy(number: u8, lan: u8) -> Vec<u8> {
    [&plain()[..], &[0, number, lan << 4, 0x34, 0x88, 0xfb]].concat()
}

fn passed(outcome: Result<Received, Fault>) -> Vec<Port> {
    let Ok(Received::Passed(outlets)) = outcome else { panic!("{outcome:?}") };
    outlets.iter().collect()
}

#[test]
fn the_first_copy_goes_up_and_the_second_goes_nowhere() {
    let (mut node, at, mut buffer) = (node(Role::Danp), Duration::from_millis(5), [0; MAX_FRAME]);
    assert_eq!(passed(node.receive(Port::A, &copy(0, 0xa), at)), [Port::H]);
    assert_eq!(passed(node.receive(Port::B, &copy(0, 0xb), at)), []);
    assert_eq!(node.waiting(Port::H), 1);
    assert_eq!(node.take(Port::H, &mut buffer), Some(&plain()[..]));
    assert_eq!(node.take(Port::H, &mut buffer), None);
    assert_eq!(node.time(), at);
}

#[test]
fn faults_change_nothing() {
    let mut ring = node(Role::Danh);
    assert_eq!(ring.receive(Port::A, &[], Duration::ZERO), Err(Fault::Unread));
    assert_eq!(ring.receive(Port::A, &plain(), Duration::ZERO), Err(Fault::Untagged));
    assert_eq!(ring.send(&plain(), Duration::ZERO), Err(Fault::Unread));
    let counted = ring.counters(Port::A);
    assert_eq!((counted.received, counted.unread, counted.untagged, counted.sent), (2, 1, 1, 0));
    let mut full = node(Role::Danp);
    for number in 0..=255 {
        assert_eq!(passed(full.receive(Port::A, &copy(number, 0xa), Duration::ZERO)), [Port::H]);
    }
    let mut next = copy(0, 0xa);
    next[60] = 1;
    assert_eq!(full.receive(Port::A, &next, Duration::ZERO), Err(Fault::OutboxFull));
    assert_eq!(full.waiting(Port::H), 256);
}

#[test]
fn a_setup_that_there_is_not_opens_no_node() {
    let role = Role::RedBoxPrp { lan: Lan::B, net: 7 };
    assert_eq!(Node::new(&Setup::new(role, OWN, Key::Fixed)).err(), Some(Fault::Argument));
    assert_eq!(Node::new(&Setup::new(Role::Danp, OWN, Key::Octets([0; 32]))).err(), Some(Fault::Argument));
    assert!(Node::new(&Setup::new(Role::Danp, OWN, Key::Octets([1; 32]))).is_ok());
}

#[test]
fn other_nodes_and_alarms() {
    let (mut node, later) = (node(Role::Danp), Duration::from_millis(3001));
    node.receive(Port::A, &copy(5, 0xa), Duration::ZERO).unwrap();
    node.receive(Port::B, &copy(7, 0xb), later).unwrap();
    node.tick(later).unwrap();
    let known: Vec<Status> = node.nodes().collect();
    assert_eq!(known.len(), 1);
    assert_eq!((known[0].mac, known[0].age_a, known[0].seq_b), (OTHER, Some(later), 7));
    assert_eq!(node.status(OTHER), Some(known[0]));
    assert_eq!(node.status(OWN), None);
    assert_eq!(node.alarms().collect::<Vec<_>>(), [Alarm::NotHeardAt(Port::A, OTHER, later)]);
}

#[test]
fn alarms_are_told_once() {
    let (mut node, later) = (node(Role::Danp), Duration::from_millis(3001));
    assert_eq!(node.alarms_since(0), Ok(AlarmsSince::default()));
    node.receive(Port::B, &copy(7, 0xb), later).unwrap();
    node.tick(later).unwrap();
    let alarm = Alarm::NotHeardAt(Port::A, OTHER, later);
    assert_eq!(node.alarms_since(0), Ok(AlarmsSince { alarms: vec![alarm], missed: 0, next: 1 }));
    assert_eq!(node.alarms_since(1), Ok(AlarmsSince { alarms: vec![], missed: 0, next: 1 }));
}

#[test]
fn a_redbox_tells_whom_it_stands_for() {
    let (mut node, at) = (node(Role::RedBoxSan), Duration::from_millis(5));
    assert_eq!(node.proxied().count(), 0);
    node.receive(Port::C, &plain(), at).unwrap();
    assert_eq!(node.proxied().collect::<Vec<_>>(), [Proxied { mac: OTHER, at }]);
}

#[test]
fn a_record_goes_from_node_to_node() {
    let (mut one, mut standby, at) = (node(Role::Danp), node(Role::Danp), Duration::from_millis(100));
    one.receive(Port::A, &copy(5, 0xa), at).unwrap();
    let snapshot = one.snapshot().unwrap();
    assert_eq!(snapshot.len(), 7 + 784);
    let wide = Setup { window: Window::Wide, ..Setup::new(Role::Danp, OWN, Key::Fixed) };
    let mut resumed = Node::resumed(&wide, &snapshot).unwrap();
    assert_eq!(resumed.time(), at);
    standby.absorb(&snapshot).unwrap();
    for node in [&mut resumed, &mut standby] {
        assert_eq!(passed(node.receive(Port::B, &copy(5, 0xb), at)), []);
        assert_eq!(passed(node.receive(Port::B, &copy(6, 0xb), at)), [Port::H]);
    }
    assert_eq!(Node::resumed(&wide, &snapshot[1..]).err(), Some(Fault::Snapshot));
    assert_eq!(standby.absorb(&[]), Err(Fault::Snapshot));
}

#[test]
fn the_version_is_that_of_the_crate() {
    let (major, minor, patch) = version();
    assert_eq!(format!("{major}.{minor}.{patch}"), env!("CARGO_PKG_VERSION"));
}

#[test]
fn a_node_goes_to_another_thread() {
    let mut node = node(Role::Danh);
    let back = std::thread::spawn(move || {
        node.tick(Duration::ZERO).unwrap();
        node
    });
    assert_eq!(back.join().unwrap().waiting(Port::A), 1);
}
