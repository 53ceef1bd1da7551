//! Lines at a terminal. Each test starts this program again, with a scene, at a terminal of its own.

#[path = "common/screen.rs"]
mod screen;

use std::fs::File;
use std::os::fd::AsRawFd;
use std::os::unix::process::ExitStatusExt;
use std::time::Duration;
use std::{env, io, ptr, thread};

use comvizga::{Config, DefaultEditor, EditMode, ReadlineError, Result};
use screen::{COLUMNS, LINES, SCENE, Screen, Start, is_raw};

/// The table of the lines of a scene: what is typed, and what is answered.
type Lines<'a> = &'a [(&'a str, &'a str)];

/// What is done at the terminal; it is no test of its own.
#[test]
#[ignore = "the other tests start it"]
fn scene() -> Result<()> {
    let mut editor = DefaultEditor::new()?;
    match env::var(SCENE).unwrap_or_default().as_str() {
        "vi" => {
            let config = Config::builder().edit_mode(EditMode::Vi).build();
            editor = DefaultEditor::with_config(config)?;
        }
        "panic" => editor.set_completer(|_, _| panic!("no words")),
        "words" => editor.set_completer(|line, cursor| {
            print!("asked {line} {cursor}");
            Vec::new()
        }),
        "busy" => editor.set_completer(|_, _| {
            let other = || DefaultEditor::new()?.readline("other> ");
            print!("{:?}", thread::spawn(other).join());
            Vec::new()
        }),
        "flood" => editor.set_completer(|_, _| {
            print!("{}", "no room ".repeat(100_000));
            Vec::new()
        }),
        "fault" => editor.set_completer(|_, _| write_to_nowhere()),
        "overflow" => editor.set_completer(|_, _| vec![nested(0).to_string()]),
        "exiting child" => editor.set_completer(|_, _| with_child(exit)),
        "killed child" => editor.set_completer(|_, _| with_child(|| raise(libc::SIGTERM))),
        "initial" => {
            let line = editor.readline_with_initial("> ", ("ab", "ef"))?;
            println!("got {line}.");
        }
        "replaced" => {
            println!("got {}.", editor.readline("no prompt")?);
            replace_input()?;
        }
        _ => {}
    }
    loop {
        match editor.readline("> ") {
            Ok(line) => println!("got {line}. Raw: {}.", is_raw(libc::STDIN_FILENO)),
            Err(ReadlineError::Interrupted) => println!("interrupted"),
            Err(ReadlineError::Eof) => return Ok(()),
            Err(error) => return Err(error),
        }
    }
}

/// Writes where no memory is.
fn write_to_nowhere() -> Vec<String> {
    // SAFETY: there is no excuse. The process ends here, which the test wants.
    unsafe { ptr::without_provenance_mut::<u8>(64).write_volatile(1) };
    Vec::new()
}

/// Calls itself until the stack is full.
fn nested(depth: u64) -> u64 {
    let room = std::hint::black_box([depth; 512]);
    if depth == u64::MAX {
        return 0;
    }
    nested(room[0] + 1) + room[1]
}

/// Starts a child that does something, and waits for its end.
fn with_child(act: fn()) -> Vec<String> {
    // SAFETY: the child makes only calls that may be made there. The parent waits for it.
    unsafe {
        match libc::fork() {
            0 => act(),
            child => {
                libc::waitpid(child, ptr::null_mut(), 0);
            }
        }
    }
    print!("the child has ended");
    Vec::new()
}

/// Ends the process as a program of C does.
fn exit() {
    // SAFETY: this call takes no pointer.
    unsafe { libc::exit(0) };
}

/// Sends a signal to the process itself.
fn raise(signal: i32) {
    // SAFETY: this call takes no pointer.
    unsafe { libc::raise(signal) };
}

/// Puts the terminal in the place of standard input.
fn replace_input() -> io::Result<()> {
    let terminal = File::options().read(true).open("/dev/tty")?;
    // SAFETY: this call takes no pointer.
    match unsafe { libc::dup2(terminal.as_raw_fd(), libc::STDIN_FILENO) } {
        0.. => Ok(()),
        _ => Err(io::Error::last_os_error()),
    }
}

/// Starts a scene at a terminal that controls it.
fn start(scene: &'static str) -> io::Result<Screen> {
    Screen::start(&Start { scene, ..LINES })
}

#[test]
fn lines_are_read_and_the_terminal_is_set_back() -> io::Result<()> {
    let mut screen = start("lines")?;
    assert!(screen.is_raw());
    screen.enter("abc\r", "got abc. Raw: false.")?;
    screen.enter("de\x1b[Df\rgh\r", "got dfe.")?;
    screen.enter("", "got gh.")?;
    screen.enter("ij\x03", "interrupted")?;
    screen.end()
}

#[test]
fn a_line_begins_with_what_it_is_handed() -> io::Result<()> {
    let mut screen = start("initial")?;
    screen.enter("cd\r", "got abcdef.")?;
    screen.end()
}

#[test]
fn a_completer_sees_the_line_at_the_tab() -> io::Result<()> {
    let mut screen = start("words")?;
    screen.type_for("a\u{e9}b\x1b[D\tc", "asked a\u{e9}b 3")?;
    screen.enter("\r", "got a\u{e9}cb.")?;
    screen.end()
}

#[test]
fn one_line_at_a_time_is_read() -> io::Result<()> {
    let mut screen = start("busy")?;
    screen.type_for("\t", "another line is being read")?;
    screen.enter("ab\r", "got ab.")?;
    screen.end()
}

#[test]
fn a_panic_sets_the_terminal_back() -> io::Result<()> {
    let mut screen = start("panic")?;
    screen.type_for("a\t", "no words")?;
    screen.wait_for("failed")?;
    assert!(!screen.status()?.success());
    assert!(!screen.is_raw());
    Ok(())
}

#[test]
fn a_terminal_is_edited_at_wherever_it_stands() -> io::Result<()> {
    let ways = [
        (
            "a terminal that controls no program",
            "exec \"$@\"",
            false,
            "lines",
        ),
        ("output into a pipe", "\"$@\" | cat", true, "lines"),
        (
            "a terminal in place of a pipe",
            "echo a | \"$@\"",
            true,
            "replaced",
        ),
    ];
    let lines: Lines = &[
        ("ac\x1b[Db\r", "got abc. Raw: false."),
        ("d\x7fe\r", "got e."),
    ];
    for (way, script, is_controlling, scene) in ways {
        let mut screen = Screen::start(&Start {
            scene,
            script,
            is_controlling,
            ..LINES
        })?;
        for (typed, answer) in lines {
            assert!(screen.is_raw(), "{way}");
            screen.enter(typed, answer)?;
        }
        // The cursor comes back into the first row, which has as many columns as the terminal.
        let typed = "a".repeat(COLUMNS.into()) + &"\x1b[D".repeat(10);
        screen.type_for(&typed, "\x1b[1A")?;
        screen.enter("\r", "got a")?;
        screen.end()?;
    }
    Ok(())
}

#[test]
fn a_terminal_that_cannot_move_its_cursor_is_sent_no_escape_sequence() -> io::Result<()> {
    let mut screen = Screen::start(&Start {
        term: "dumb",
        ..LINES
    })?;
    assert!(!screen.is_raw());
    let shown = screen.type_for("abc\n", "got abc.")?;
    assert!(!shown.contains('\x1b'), "{shown:?}");
    screen.wait_for("> ")?;
    screen.end()
}

#[test]
fn a_signal_sets_the_terminal_back() -> io::Result<()> {
    let signals = [libc::SIGTERM, libc::SIGABRT, libc::SIGALRM, libc::SIGSEGV];
    for (number, signal) in (0..200).zip(signals.into_iter().cycle()) {
        let mut screen = Screen::start(&Start {
            script: "ulimit -c 0; exec \"$@\"",
            is_controlling: number % 3 > 0,
            ..LINES
        })?;
        // While lines are read and answered, at another moment each time.
        screen.type_text(&"ab\rc\x1b[Dd\r".repeat(5))?;
        let moment = Duration::from_micros(number * 7919 % 5000);
        thread::sleep(moment);
        screen.signal_reader(signal)?;
        if signal == libc::SIGSEGV {
            // The first one is dropped by Rust's runtime, which handles this signal.
            thread::sleep(Duration::from_millis(20));
            screen.signal_reader(signal)?;
        }
        assert_eq!(screen.status()?.signal(), Some(signal));
        assert!(!screen.is_raw(), "signal {signal} after {moment:?}");
    }
    Ok(())
}

#[test]
fn a_signal_ends_a_program_whose_output_is_full() -> io::Result<()> {
    let mut screen = start("flood")?;
    screen.type_for("a\t", "no room")?;
    // Nobody reads what else is written.
    thread::sleep(Duration::from_millis(100));
    screen.signal(libc::SIGTERM)?;
    assert_eq!(screen.status()?.signal(), Some(libc::SIGTERM));
    assert!(!screen.is_raw());
    Ok(())
}

#[test]
fn a_fault_sets_the_terminal_back() -> io::Result<()> {
    let faults = [
        ("fault", libc::SIGSEGV, ""),
        ("overflow", libc::SIGABRT, "has overflowed its stack"),
    ];
    for (scene, signal, message) in faults {
        let mut screen = Screen::start(&Start {
            scene,
            script: "ulimit -c 0; exec \"$@\"",
            ..LINES
        })?;
        screen.type_for("ab\t", message)?;
        assert_eq!(screen.status()?.signal(), Some(signal));
        assert!(!screen.is_raw(), "{scene}");
    }
    Ok(())
}

#[test]
fn a_child_leaves_the_terminal_to_its_parent() -> io::Result<()> {
    for scene in ["exiting child", "killed child"] {
        let mut screen = start(scene)?;
        screen.type_for("ab\t", "the child has ended")?;
        assert!(screen.is_raw(), "{scene}");
        screen.enter("c\r", "got abc.")?;
        screen.end()?;
    }
    Ok(())
}

#[test]
fn a_line_that_was_stopped_is_drawn_below() -> io::Result<()> {
    let mut screen = Screen::start(&Start {
        script: "set -m; \"$@\"; echo the shell; fg",
        ..LINES
    })?;
    // The cursor stands in the second row.
    let text = "a".repeat(COLUMNS.into());
    screen.type_text(&text)?;
    screen.rest()?;
    screen.signal_foreground(libc::SIGTSTP);
    screen.wait_for("the shell")?;
    let before = screen.wait_for("\r\x1b[J> a")?;
    assert!(!before.contains("\x1b[1A"), "{before:?}");
    screen.rest()?;
    screen.enter("b\r", &format!("got {text}b."))?;
    screen.end()
}

#[test]
fn a_new_size_draws_the_line_once() -> io::Result<()> {
    let mut screen = start("lines")?;
    screen.type_for("ab", "b")?;
    screen.rest()?;
    screen.signal(libc::SIGWINCH)?;
    let drawn = screen.rest()?;
    assert_eq!(drawn.matches("\r\x1b[J").count(), 1, "{drawn:?}");
    screen.enter("\r", "got ab.")?;
    screen.end()
}

#[test]
fn a_line_goes_on_where_nobody_can_suspend_it() -> io::Result<()> {
    let mut screen = start("lines")?;
    // Behind C-z the terminal is raw again when it is asked to mark pasted texts again.
    screen.type_for("ab\x1a", "\x1b[?2004h")?;
    screen.enter("c\r", "got abc.")?;
    assert!(screen.is_raw());
    screen.end()
}

#[test]
fn a_lone_esc_is_a_key_in_vi() -> io::Result<()> {
    let mut screen = start("vi")?;
    screen.type_for("ab\x1b", "b")?;
    // Longer than the half second after which the library is told that no byte came.
    thread::sleep(Duration::from_millis(700));
    screen.enter("\r", "got ab.")?;
    screen.end()
}
