use cup_bridge::limits::{run_bytes, ACCEPTED};
use cup_bridge::{machine, meaning};

fn main() {
    let name = std::env::args().nth(1).expect("the name of a plan file");
    let loaded = machine::load(&std::fs::read(name).expect("a plan file"));
    println!("load: {}, entry {}", meaning(loaded.number), loaded.entry);
    if loaded.number == ACCEPTED {
        let mut events = [0; run_bytes(64)];
        let run = machine::run_lazy(&loaded.state, 64, &mut events);
        println!("run: {}, status {}", meaning(run.number), run.status);
        let at = machine::position(&run.state, 0);
        println!("position: {}, {} grains", meaning(at.number), at.value);
    }
}
