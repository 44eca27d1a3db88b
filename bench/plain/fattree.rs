//! A generated network: the files of a fat tree, and its session.

const LINKS_START: u32 = 0x0a80_0000;
const LANS_START: u32 = 0x0a00_0000;
const FIRST_SYSTEM: u32 = 64512;

/// A router of a fat tree.
struct Node {
    name: String,
    /// Own address, the peer's address, and the peer's number, of each link in order.
    ports: Vec<(u32, u32, usize)>,
    /// The local network of an edge router.
    lan: Option<u32>,
}

fn dotted(address: u32) -> String {
    let [a, b, c, d] = address.to_be_bytes();
    format!("{a}.{b}.{c}.{d}")
}

/// The files of a fat tree of so many pods, each with its name, and its session.
pub fn fat_tree(pods: usize) -> (Vec<(String, Vec<u8>)>, Vec<u8>) {
    let half = pods / 2;
    let mut nodes = nodes_of(half);
    for (number, (upper, lower)) in (0..).zip(links_of(half)) {
        let address = LINKS_START + 4 * number;
        nodes[upper].ports.push((address + 1, address + 2, lower));
        nodes[lower].ports.push((address + 2, address + 1, upper));
    }
    let files = nodes.iter().enumerate().map(|(number, node)| (format!("{}.cfg", node.name), text_of(node, number, half))).collect();
    let asked = dotted(LANS_START + 256 * (pods * half - 1) as u32 + 9);
    let session = format!("reach e0_0 {asked}\nevery e0_0 {asked}\nimplies 2 1\nimplies 1 2\n");
    (files, session.into_bytes())
}

/// The cores, and then the routers of each pod, first the ones between.
fn nodes_of(half: usize) -> Vec<Node> {
    let node = |name: String, lan: Option<u32>| Node { name, ports: Vec::new(), lan };
    let mut nodes: Vec<Node> = (0..half * half).map(|i| node(format!("c{i}"), None)).collect();
    for pod in 0..2 * half {
        nodes.extend((0..half).map(|j| node(format!("a{pod}_{j}"), None)));
        nodes.extend((0..half).map(|j| node(format!("e{pod}_{j}"), Some(LANS_START + 256 * (pod * half + j) as u32))));
    }
    nodes
}

/// The upper and the lower end of each link, in order of number.
fn links_of(half: usize) -> Vec<(usize, usize)> {
    let between = |pod: usize, a: usize| half * half + pod * 2 * half + a;
    let edge = |pod: usize, e: usize| between(pod, half + e);
    let mut links = Vec::new();
    for pod in 0..2 * half {
        links.extend((0..half * half).map(|k| (between(pod, k % half), edge(pod, k / half))));
    }
    for pod in 0..2 * half {
        links.extend((0..half * half).map(|core| (core, between(pod, core / half))));
    }
    links
}

fn text_of(node: &Node, number: usize, half: usize) -> Vec<u8> {
    let system = |number: usize| FIRST_SYSTEM + number as u32;
    let mut text = format!("hostname {}\n", node.name);
    let ports = node.ports.iter().map(|&(own, _, _)| (own, "255.255.255.252"));
    for (place, (own, mask)) in ports.chain(node.lan.map(|lan| (lan + 1, "255.255.255.0"))).enumerate() {
        text += &format!("interface Ethernet{place}\n ip address {} {mask}\n", dotted(own));
    }
    text += &format!("router bgp {}\n bgp bestpath as-path multipath-relax\n maximum-paths {half}\n", system(number));
    if let Some(lan) = node.lan {
        text += &format!(" network {} mask 255.255.255.0\n", dotted(lan));
    }
    for &(_, peer, other) in &node.ports {
        text += &format!(" neighbor {} remote-as {}\n", dotted(peer), system(other));
    }
    text.into_bytes()
}
