//! The script interface, to the byte.

use second::player::play;

fn says(script: &[u8], output: &str) {
    assert_eq!(String::from_utf8_lossy(&play(script)), output, "{}", String::from_utf8_lossy(script));
}

#[test]
fn before_the_first_line() {
    says(
        b"state\nsum ring\nsum buffer\nring 0 0\nbuffer 0 0\nshow\nturn\n",
        "ok 0 0 0 w p\nok 00000000\nok 00000000\nok -\nok -\nrefused 8\nrefused 8\n",
    );
}

#[test]
fn ends_of_lines() {
    says(b"", "");
    says(b"\n\n", "");
    says(b"x", "? 1\n");
    says(b"\nx\n", "? 2\n");
    says(b"make 4624\nticket", "ok\nok 1\n");
    says(b"make 4624\r\n", "? 1\n");
    says(b"   \n#\n# x\n # x\n", "? 4\n");
}

#[test]
fn long_lines() {
    let long = |first: u8, length: usize| {
        let mut script = vec![first; length];
        script.extend(b"\nmake 4624");
        script
    };
    says(&long(b'#', 300_000), "ok\n");
    says(&long(b'#', 300_001), "? 1 too long\nok\n");
    says(&long(b' ', 300_000), "ok\n");
    says(&long(b' ', 300_001), "? 1 too long\nok\n");
    says(&long(b'x', 300_000), "? 1\nok\n");
}

#[rustfmt::skip]
const NO_COMMANDS: &[&str] = &[
    " make 4624", "make 4624 ", "make  4624", "make", "make 4624 1", "Make 4624", "make +1", "make -1", "make 1.0",
    "make 140001", "make 18446744073709551616", "make\t4624", "flush 1 140001", "fill 1 1 0 140001 0 -",
    "fill 1 1 0 1 0 1122", "fill 1 1 0 1 0", "write 1 1 1 1", "write 1 1 1 111", "write 1 1 1 1g", "write 1 1 1 11X1",
    "write 1 1 1 11x", "write 1 1 1 x1", "write 1 1 1 1x1", "write 1 1 1 11x1x1", "write 1 1 1 11x140001",
    "write 1 1 1 --", "write 4294967296 1 1 11", "write 1 4294967296 1 11", "write 1 1 4294967296 11",
    "pin 4294967296", "report 1 Good", "report 1", "report good 1", "sum", "sum state", "ring 1 0", "ring 0 1",
    "buffer 0 1", "poke 0 00", "set phase 0 256", "set phase 254 0", "set number 254 0", "set pin 16 0 0 0",
    "set pin 0 0 0 4294967296", "set nothing 0", "set next", "set next 18446744073709551616", "turn 1", "é",
];

#[test]
fn no_commands() {
    for line in NO_COMMANDS {
        says(line.as_bytes(), "? 1\n");
    }
    says(&[0, 0xFF, 0x80], "? 1\n");
}

#[test]
fn words() {
    says(b"make 0000000000000000000000004624\nwrite 07 0 00 aBcD\nring 40 43\n", "ok\nok 1\nok ABCD00\n");
    says(
        b"make 4624\nwrite 1 0 0 -\nwrite 1 0 0 11x0\nwrite 1 0 0 11x140000\n",
        "ok\nrefused 2\nrefused 2\nrefused 2\n",
    );
    says(b"make 4624\npin 1\nfill 1 1 0 3 2 11x2\nbuffer 0 3\n", "ok\nok 1\nok 2\nok 1111AA\n");
    let mut longest = b"make 4624\nwrite 1 0 0 ".to_vec();
    longest.extend(b"1".repeat(280_000));
    says(&longest, "ok\nrefused 2\n");
    longest.extend(b"11");
    says(&longest, "ok\n? 2\n");
}

#[test]
fn buffers_change_before_the_call() {
    says(
        b"make 4624\nfill 9 1 0 4 1 77\nbuffer 0 4\nflush 1 2\nbuffer 0 2\n",
        "ok\nrefused 9\nok 77AAAAAA\nnothing\nok AAAA\n",
    );
    says(
        b"make 4624\nticket\nmake 20\nring 0 20\nstate\nturn\n",
        &format!("ok\nok 1\nrefused 11\nok {}\nok 2 0 0 w p\nrefused 8\n", "AA".repeat(20)),
    );
}

#[test]
fn what_the_state_shows() {
    says(b"set next 5\nset flush 6\nset count 2\nset number 1 9\nset phase 1 255\nset pin 15 1 2 3\nset pin 2 0 5 6\nstate\n", "ok\nok\nok\nok\nok\nok\nok\nok 5 6 2 w 0:0 9:255 p 15:1:2:3\n");
    // A count above 254 shows 254 places.
    let output = play(b"set count 300\nstate\n");
    assert_eq!(String::from_utf8(output).unwrap().matches("0:0").count(), 254);
    // A pin takes the lowest free record. Places behind the listed writes: a pin leaves them, a write clears them.
    let script = b"make 4624\nset number 5 9\nset pin 0 1 1 1\nset next 2\npin 4\nset count 6\nstate\nset count 0\nwrite 1 1 1 11\nset count 6\nstate\n";
    let output = "ok\nok\nok\nok\nok 2\nok\nok 3 0 6 w 0:0 0:0 0:0 0:0 0:0 9:0 p 0:1:1:1 1:2:2:4\nok\nok 3\nok\nok 4 0 6 w 3:0 0:0 0:0 0:0 0:0 0:0 p 0:1:1:1 1:2:2:4\n";
    says(script, output);
}

#[test]
fn the_picture() {
    let script = b"make 4624\nwrite 9 0 0 11x233\nwrite 7 0 0 22\npin 9\npin 0\nflush 9 500\nshow\nreport 5 good\nshow\nset next 0\nshow\n";
    let shown = "  B is node 7\n  pin 3 from 1 for node 9\n  pin 4 from 1 for all\n";
    let free = [".."; 13].join(" ");
    let rows = |cells: &str| format!("    0 {cells} {free}\n   16 .. ..\n  A is node 9\n{shown}");
    let output = format!(
        "ok\nok 1\nok 2\nok 3\nok 4\nok 5 249\nok 18 slots, 3 used, next 6, flush 5 out\n{}ok\nok 18 slots, 3 used, next 6\n{}ok\nrefused 12\n",
        rows("A> A> B-"),
        rows("A= A= B-")
    );
    says(script, &output);
}

#[test]
fn letters_run_out() {
    let mut script = String::from("make 65296\n");
    for node in 1..=53 {
        script += &format!("write {node} 0 0 11\n");
    }
    let output = String::from_utf8(play(format!("{script}show\n").as_bytes())).unwrap();
    assert!(output.contains(" Z- a- b-") && output.contains(" z- *- .."));
    assert!(output.ends_with("  z is node 52\n"));
}
