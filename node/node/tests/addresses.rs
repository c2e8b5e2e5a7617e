//! Nodes that are dialled by names, and listen elsewhere than they are dialled.

use simplex_node::network::{Network, Plan, folder_of};
use simplex_node::settings::Protocol;
use std::fs;
use std::net::TcpListener;
use std::time::Duration;

/// Within what time something has to be seen, on a machine that does much else.
const SOON: Duration = Duration::from_secs(120);

#[test]
fn members_are_dialled_by_names_and_listen_at_addresses_of_their_own() {
    let plan = Plan {
        nodes: 4,
        protocol: Protocol::default(),
        sync: false,
        faults: Vec::new(),
        delay_ms: 0,
        program: env!("CARGO_BIN_EXE_simplex-node").into(),
        folder: folder_of("names"),
    };
    let mut network = Network::new(plan).expect("keys and settings");
    // (all are held until each has its own)
    let held: Vec<TcpListener> = (0..4).map(|_| TcpListener::bind("127.0.0.1:0").expect("a port")).collect();
    let ports: Vec<u16> = held.iter().map(|it| it.local_addr().expect("an address").port()).collect();
    drop(held);
    for index in 0..4 {
        let change = |it: &mut simplex_node::Settings| {
            for (member, port) in it.members.iter_mut().zip(&ports) {
                member.address = format!("localhost:{port}").try_into().expect("a name");
            }
            it.listen = Some(format!("0.0.0.0:{}", ports[index as usize]).try_into().expect("an address"));
        };
        network.set(index, change).expect("settings");
    }
    network.begin_all().expect("processes");
    let is_final = network.wait_until(&[0, 1, 2, 3], "height", 5, SOON);
    assert!(is_final, "{}", fs::read_to_string(network.log(0)).unwrap_or_default());
    network.stop().expect("they stop");
    fs::remove_dir_all(network.folder()).expect("a folder");
}
