//! That the benchmark is fair to both sides, and names what it ran on.

use seg2_bench::processor::named;
use seg2_bench::time::turn;

/// In so many rounds, how often each stands directly before each other, at the
/// boundary of two rounds too.
fn before<const N: usize>(rounds: usize) -> Vec<Vec<usize>> {
    let line: Vec<usize> = (0..rounds).flat_map(turn::<N>).collect();
    let mut counts = vec![vec![0; N]; N];
    for pair in line.windows(2) {
        counts[pair[0]][pair[1]] += 1;
    }
    counts
}

#[test]
fn every_kind_is_in_every_round_once() {
    for round in 0..20 {
        let mut two = turn::<2>(round);
        let mut three = turn::<3>(round);
        two.sort();
        three.sort();
        assert_eq!((two, three), ([0, 1], [0, 1, 2]));
    }
}

#[test]
fn each_comes_before_the_other_as_often() {
    let first = |round| turn::<2>(round)[0];
    assert_eq!((0..400).filter(|&round| first(round) == 0).count(), 200);
    let place = |round, kind| turn::<3>(round).iter().position(|&i| i == kind);
    for (a, b) in [(0, 1), (0, 2), (1, 2)] {
        let earlier = (0..600).filter(|&round| place(round, a) < place(round, b));
        assert_eq!(earlier.count(), 300);
    }
}

#[test]
fn each_is_every_others_neighbour_as_often() {
    let counts = before::<3>(600);
    let others = [(0, 1), (1, 0), (0, 2), (2, 0), (1, 2), (2, 1)];
    let times: Vec<usize> = others.iter().map(|&(a, b)| counts[a][b]).collect();
    let (least, most) = (times.iter().min(), times.iter().max());
    assert!(most.unwrap() - least.unwrap() <= 2, "{times:?}");
}

#[test]
fn processors_are_named() {
    let arm = "processor\t: 0\nCPU implementer\t: 0x41\nCPU part\t: 0xd0c\n\nprocessor\t: 1\nCPU implementer\t: 0x41\nCPU part\t: 0xd0c\n\n";
    assert_eq!(named(arm), "Arm Neoverse N1, 2 cores");
    let phone =
        "CPU implementer : 0x41\nCPU part : 0xd05\n\nCPU implementer : 0x41\nCPU part : 0xd41\n";
    assert_eq!(
        named(phone),
        "Arm Cortex-A55, 1 core; Arm Cortex-A78, 1 core"
    );
    let other = "CPU implementer : 0x61\nCPU part : 0xd0c\n";
    assert_eq!(named(other), "Arm, implementer 0x61, part 0xd0c, 1 core");
    let intel = "processor : 0\nmodel name\t: Some Processor @ 2.00GHz\nflags : a b\n";
    assert_eq!(named(intel), "Some Processor @ 2.00GHz, 1 core");
    assert!(named("").starts_with("unknown"));
}
