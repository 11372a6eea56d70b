//! The guarded memory itself: whoever leaves what was lent dies of it. The trespasses are made by
//! this program started a second time.

use afa_tests::fault;
use afa_tests::guarded::{Edge, ReadOnly, Writable};
use std::env;
use std::hint::black_box;
use std::os::unix::process::ExitStatusExt;
use std::process::{Command, Output};

const VARIABLE: &str = "AFA_TESTS_TRESPASS";
const LENT: [u8; 21] = *b"\xaf\x01 twenty-one bytes \xfa";

/// The kind of trespass is in the variable.
#[test]
#[ignore = "it is started by the tests below"]
fn trespass() {
    let kind = env::var(VARIABLE).expect("a kind of trespass");
    let mut read_only = ReadOnly::with_room(100);
    let mut writable = Writable::with_room(100);
    let at_end = read_only.lend(&LENT, Edge::End).as_ptr();
    let lent: [fault::Lent; 2] = [("image", &LENT), ("word", b"\x05\x06")];
    fault::on_record("trespass", &lent, || {
        // SAFETY: the first two stay in what was lent. The others are not safe, and the signal in
        // which they end is what is tested.
        unsafe {
            match kind.as_str() {
                "read within" => {
                    black_box(at_end.read_volatile());
                    black_box(at_end.add(20).read_volatile());
                    let at_start = read_only.lend(&LENT, Edge::Start).as_ptr();
                    black_box(at_start.read_volatile());
                    black_box(at_start.add(20).read_volatile());
                }
                "write within" => {
                    for edge in [Edge::Start, Edge::End] {
                        let lent = writable.lend(&[1_u64; 5], edge);
                        lent.fill(2);
                        black_box(lent);
                    }
                }
                "read past the end" => {
                    black_box(at_end.add(21).read_volatile());
                }
                "read before the start" => {
                    let at_start = read_only.lend(&LENT, Edge::Start).as_ptr();
                    black_box(at_start.sub(1).read_volatile());
                }
                "write into what is read only" => at_end.cast_mut().write_volatile(LENT[0]),
                "read past the end of nothing" => {
                    let nothing = read_only.lend::<u8>(&[], Edge::End).as_ptr();
                    black_box(nothing.read_volatile());
                }
                "write past the end" => {
                    let lent = writable.lend(&[1_u64; 5], Edge::End).as_mut_ptr();
                    lent.add(5).cast::<u8>().write_volatile(0);
                }
                "write past the end of nothing" => {
                    let nothing = writable.lend::<u8>(&[], Edge::End).as_mut_ptr();
                    nothing.write_volatile(0);
                }
                "write before the start" => {
                    let lent = writable.lend(&[1_u64; 5], Edge::Start).as_mut_ptr();
                    lent.cast::<u8>().sub(1).write_volatile(0);
                }
                _ => panic!("{kind} is no trespass"),
            }
        }
        0
    });
}

fn start(kind: &str) -> Output {
    Command::new(env::current_exe().unwrap())
        .args(["--exact", "trespass", "--ignored", "--nocapture"])
        .env(VARIABLE, kind)
        .output()
        .unwrap()
}

#[test]
fn staying_within_does_no_harm() {
    for kind in ["read within", "write within"] {
        let output = start(kind);
        assert!(output.status.success(), "{kind}: {output:?}");
        assert!(String::from_utf8_lossy(&output.stdout).contains("1 passed"));
    }
}

#[test]
fn trespassing_is_deadly() {
    const SIGSEGV: i32 = 11;
    for kind in [
        "read past the end",
        "read before the start",
        "write into what is read only",
        "read past the end of nothing",
        "write past the end",
        "write past the end of nothing",
        "write before the start",
    ] {
        let output = start(kind);
        assert_eq!(output.status.signal(), Some(SIGSEGV), "{kind}: {output:?}");
        let said = String::from_utf8_lossy(&output.stderr);
        let hexadecimal = afa_tests::compare::hexadecimal(&LENT);
        let expected = format!("the call of trespass\nimage: {hexadecimal}\nword: 0506\n");
        assert!(said.contains(&expected), "{kind}: {said}");
    }
}
