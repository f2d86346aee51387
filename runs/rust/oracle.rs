//! The program `oracle`: reads a call list and writes the original's answers.
//! The original calls itself once in each round, so it gets a deep stack:
//! 1,024 MiB, or ORACLE_STACK_MIB.

fn main() {
    let mib = std::env::var("ORACLE_STACK_MIB").map_or(1024, |v| v.parse().unwrap());
    std::thread::Builder::new()
        .stack_size(mib << 20)
        .spawn(maybenot_simulator::network::harness::main)
        .unwrap()
        .join()
        .unwrap();
}
