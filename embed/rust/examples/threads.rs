//! Runs a script on four threads at once, builds its module, and runs that, at once and in steps: `threads FILE`.
use stackwasm::{Action, Run, Status, answer};
use std::{env, fs, process, thread};

// What a module prints and comes to in steps of so many reductions, and how many it took.
fn in_steps(module: &[u8], steps: u64) -> (Vec<u8>, u64) {
    let mut run = Run::begin(module).expect("a module that has a run");
    let mut text = Vec::new();
    while run.step(steps).status == Status::Running {
        text.append(&mut run.read());
    }
    text.append(&mut run.read());
    text.append(&mut run.results().expect("memory suffices"));
    (text, run.counts().taken)
}

fn main() {
    let Some(name) = env::args().nth(1) else {
        eprintln!("usage: threads FILE");
        process::exit(2);
    };
    let script = fs::read(&name).expect("a file that can be read");
    let run = Action::Run { steps: 100_000_000, stats: true };
    let answers: Vec<_> = thread::scope(|scope| {
        let threads: Vec<_> = (0..4).map(|_| scope.spawn(|| answer(run, &script))).collect();
        threads.into_iter().map(|thread| thread.join().expect("no call panics")).collect()
    });
    assert!(answers.iter().all(|other| *other == answers[0]), "four threads have one answer");

    let module = answer(Action::Build, &script);
    assert_eq!(module.status, Status::Done);
    let again = answer(run, &module.out);
    assert_eq!((again.status, &again.out), (answers[0].status, &answers[0].out), "the module does what the script does");
    let stepped: Vec<_> = thread::scope(|scope| {
        let threads: Vec<_> = [1, 10, 100].map(|steps| scope.spawn({ let module = &module.out; move || in_steps(module, steps) })).into();
        threads.into_iter().map(|thread| thread.join().expect("no call panics")).collect()
    });
    assert!(stepped.iter().all(|other| (&other.0, other.1) == (&again.out, stepped[0].1)), "steps of any size lead to the same");
    let trace = answer(Action::Trace { steps: 1000 }, &module.out);
    let audit = answer(Action::Audit { trace: &trace.out, steps: 1000 }, &module.out);
    assert_eq!(audit.status, Status::Done, "the trace is the run's");
    print!("{}", String::from_utf8_lossy(&again.out));
    eprint!("{}", String::from_utf8_lossy(&again.err));
}
