//! Every no with its own cause alone, and the order where several causes meet.

use second::player::{Answer, Player};
use second::script::{Line, lines, read_line};

/// The last answer of a script.
fn last(script: &str) -> String {
    let mut player = Player::default();
    let mut answer = String::new();
    for (line, count) in lines(script.as_bytes()).zip(1..) {
        answer = player.line(line, count);
    }
    answer.trim_end().to_string()
}

fn refused(script: &str, number: usize) {
    assert_eq!(last(script), format!("refused {number}"), "{script}");
}

/// A ring with four writes of nodes 7 and 8, one of them of two slots, then the given lines.
fn on_four(rest: &str) -> String {
    format!("make 4624\nwrite 7 3 2 4E\nwrite 8 1 0 11x233\nwrite 7 1 9 4142\nwrite 7 1 9 43\n{rest}")
}

#[test]
fn ring_bytes_that_are_not_readable() {
    // Header: edition, N, head, tail, the zeros.
    let header = ["0 00", "0 02", "1 11", "1 13", "2 12", "3 12", "4 01", "15 01"];
    // The first entry: number 0 and 2^62, node 0, length 0 and 4,097, bytes 22 and 23, filler, the file limit.
    let fields = ["16 00", "23 40", "24 00", "36 00", "38 01", "39 80", "41 01", "271 01", "35 01"];
    // A head in the midst of an entry, a tail that cuts one, and numbers that don't rise.
    let walks = ["2 02", "3 02", "272 01", "16 02"];
    for poke in header.iter().chain(&fields).chain(&walks) {
        refused(&on_four(&format!("poke {poke}\nreopen\n")), 8);
        refused(&on_four(&format!("poke {poke}\nset next 0\nwrite 0 0 0 -\n")), 8);
    }
    refused("turn\n", 8);
    refused("make 4623\nreopen\n", 8);
}

#[test]
fn ring_bytes_that_stay_readable() {
    // A head that skips the first entry, an empty ring, a tail before the last one, free slots, handle and bytes.
    for poke in ["2 01", "2 05", "3 00", "3 04", "3 05", "4623 00", "1296 77", "28 FF", "40 00"] {
        let answer = last(&on_four(&format!("poke {poke}\nreopen\n")));
        assert!(answer.starts_with("ok "), "{poke}: {answer}");
    }
    assert_eq!(last(&on_four("poke 35 00\npoke 34 FF\npoke 33 FF\npoke 32 FF\nreopen\n")), "ok 5");
    // Numbers may leave gaps: the last write's number becomes 2^62 - 1, and no number is left.
    let gap: String = (1040..1047).map(|place| format!("poke {place} FF\n")).collect();
    assert_eq!(last(&on_four(&format!("{gap}poke 1047 3F\nreopen\n"))), "ok 4611686018427387904");
    refused(&on_four(&format!("{gap}poke 1047 3F\nreopen\nticket\n")), 5);
}

#[test]
fn states_that_do_not_fit() {
    let misfits = [
        // Two nodes in flight, each with all it has.
        "set flush 4\nset phase 0 1\nset phase 1 1\nset phase 2 1\nset phase 3 1",
        "set number 0 2",
        "set count 3",
        "set count 5",
        "set phase 3 3",
        "set next 0",
        "set next 4",
        "set next 4611686018427387905",
        "set pin 0 5 1 7",
        "set next 9\nset pin 0 6 1 7\nset pin 15 6 2 8",
        // A flush number without In flight writes, and the other way round; one that isn't below next.
        "set flush 1",
        "set phase 0 1",
        "set phase 0 1\nset flush 5",
        // In flight writes of two nodes, or not the oldest.
        "set phase 0 1\nset phase 1 1\nset flush 1",
        "set phase 2 1\nset flush 1",
        // A Flushed write behind one of its node that isn't.
        "set phase 2 2",
        "set phase 0 1\nset phase 2 2\nset flush 1",
        // The head entry is due to leave: no pin at all, one for another node, one whose mark is above.
        "set phase 0 2",
        "set phase 0 2\nset pin 3 1 1 8",
        "set phase 0 2\nset pin 3 1 2 7",
        "set phase 0 2\nset pin 3 0 1 7",
    ];
    for misfit in misfits {
        refused(&on_four(&format!("{misfit}\nturn\n")), 12);
        refused(&on_four(&format!("{misfit}\nwrite 0 0 0 -\n")), 12);
        assert_eq!(last(&on_four(&format!("{misfit}\nreopen\n"))), "ok 5");
    }
}

#[test]
fn states_that_fit() {
    let fits = [
        "set next 4611686018427387904",
        "set number 4 9",
        "set phase 4 7",
        "set pin 0 4 1 7",
        "set pin 0 0 9 9",
        "set pin 0 1 4611686018427387904 9\nset pin 1 2 0 0",
        "set phase 0 1\nset flush 4",
        "set phase 0 1\nset phase 2 1\nset flush 1",
        "set phase 1 1\nset flush 1",
        "set phase 1 2",
        "set phase 0 2\nset pin 3 1 1 7",
        "set phase 0 2\nset pin 3 1 0 0",
        "set phase 0 2\nset phase 2 2\nset pin 3 1 1 0",
    ];
    for fit in fits {
        let answer = last(&on_four(&format!("{fit}\nend 7\n")));
        assert_eq!(answer, "ok 11", "{fit}");
    }
}

#[test]
fn more_than_32_in_flight_fit() {
    let mut script = String::from("make 65296\n");
    for place in 0..40 {
        script += &format!("write 1 0 {place} 55\nset phase {place} 1\nset flush 1\n");
    }
    assert_eq!(last(&format!("{script}end 1\n")), "ok 40");
}

#[test]
fn order_of_the_refusals() {
    let full = "make 4624\nwrite 1 0 0 11x4096\n";
    let used_up = "set next 4611686018427387904\n";
    let pins: String = (1..=16).map(|node| format!("pin {node}\n")).collect();
    refused(&format!("{full}{used_up}write 0 0 16777215 -\n"), 1);
    refused(&format!("{full}{used_up}write 1 0 16777217 -\n"), 2);
    refused(&format!("{full}{used_up}write 1 0 16777215 11x4097\n"), 2);
    refused(&format!("{full}{used_up}write 1 0 16777215 1122\n"), 3);
    refused(&format!("{full}{used_up}write 1 0 4294967295 11x4096\n"), 3);
    refused(&format!("{full}{used_up}write 1 0 0 11\n"), 5);
    refused(&format!("{full}write 1 0 0 11\n"), 4);
    refused(&format!("{full}flush 1 5000\nset next 4611686018427387904\nflush 0 0\n"), 1);
    refused(&format!("{full}flush 1 5000\nset next 4611686018427387904\nflush 1 0\n"), 6);
    refused(&format!("{full}flush 1 5000\nflush 2 0\n"), 6);
    assert_eq!(last(&format!("{full}{used_up}flush 2 0\n")), "nothing");
    refused(&format!("{full}{used_up}flush 1 0\n"), 5);
    refused(&format!("{full}flush 1 4111\n"), 11);
    refused(&format!("make 4624\n{pins}{used_up}pin 1\n"), 10);
    refused(&format!("make 4624\n{used_up}pin 1\n"), 5);
    refused(&format!("make 4624\n{used_up}ticket\n"), 5);
    refused("make 4624\npin 1\nfill 1 0 16777216 1 2 -\n", 1);
    refused("make 4624\npin 1\nfill 9 1 16777216 1 2 -\n", 3);
    refused("make 4624\npin 1\nfill 9 1 16777215 1 2 -\n", 9);
    refused("make 4624\npin 1\nfill 1 2 0 1 2 -\n", 9);
    refused("make 4624\npin 0\nfill 1 2 0 1 0 -\n", 9);
    refused("make 4624\npin 1\nfill 1 1 0 1 2 -\n", 11);
    refused("make 4624\npin 1\nfill 1 1 0 65537 0 -\n", 11);
    assert_eq!(last("make 4624\npin 1\nfill 1 1 16711680 65536 65536 01x65536\n"), "ok 65536");
    refused("make 4624\nunpin 0\n", 9);
    refused("make 4624\nreport 0 good\n", 7);
    refused("make 4624\nend 0\n", 1);
    refused("make 0\n", 11);
    refused("make 4368\n", 11);
    refused("make 65552\n", 11);
}

#[test]
fn a_refused_call_takes_no_number_and_changes_nothing() {
    let mut player = Player::default();
    for line in lines(on_four("pin 7\nflush 7 100\n").as_bytes()) {
        player.line(line, 1);
    }
    let before = player.clone();
    for line in ["write 0 0 0 11", "write 7 0 0 11x4096", "pin 4294967296", "unpin 4", "report 5 good", "end 0"] {
        let Line::Command(command) = read_line(line.as_bytes()) else { continue };
        assert!(matches!(player.run(&command), Some(Answer::Refused(_))), "{line}");
        assert_eq!(player, before, "{line}");
    }
    assert_eq!(player.line(b"ticket", 1), "ok 7\n");
}
