//! Lines on the standard output. If nobody reads them, lines are left out, and the program goes on.

use std::fmt;
use std::io::{self, Write};
use std::sync::mpsc::{channel, sync_channel, Receiver, SyncSender};
use std::sync::{Mutex, MutexGuard, PoisonError};
use std::thread;
use std::time::Duration;

// So many lines wait for a reader.
const ROOM: usize = 512;

// How long the end of the program waits for a reader.
const LAST: Duration = Duration::from_secs(1);

struct Output {
    lines: SyncSender<String>,
    // How many lines were left out since the last one that was not.
    left_out: usize,
    // It is closed when all is written.
    done: Receiver<()>,
}

static OUTPUT: Mutex<Option<Output>> = Mutex::new(None);

fn output() -> MutexGuard<'static, Option<Output>> {
    OUTPUT.lock().unwrap_or_else(PoisonError::into_inner)
}

/// Says a line on the standard output.
#[macro_export]
macro_rules! say {
    ($($words:tt)*) => {
        $crate::output::say(format_args!($($words)*))
    };
}

/// Starts the thread that writes. Only this one waits for the reader.
pub fn start() -> io::Result<()> {
    let ((lines, waiting), (ending, done)) = (sync_channel::<String>(ROOM), channel::<()>());
    let write = move || {
        for line in waiting {
            // Whoever listened may have gone.
            let _ = io::stdout().write_all(line.as_bytes());
        }
        drop(ending);
    };
    thread::Builder::new().name("output".into()).spawn(write)?;
    let left_out = 0;
    *output() = Some(Output { lines, left_out, done });
    Ok(())
}

/// Says a line.
pub fn say(words: fmt::Arguments<'_>) {
    if let Some(output) = output().as_mut() {
        output.say(words);
    }
}

/// Waits until all is written, as long as somebody reads it.
pub fn finish() {
    if let Some(Output { lines, done, .. }) = output().take() {
        drop(lines);
        let _ = done.recv_timeout(LAST);
    }
}

impl Output {
    fn say(&mut self, words: fmt::Arguments<'_>) {
        let line = match self.left_out {
            0 => format!("{words}\n"),
            count => format!("{count} lines are left out, which nobody read\n{words}\n"),
        };
        self.left_out = self.lines.try_send(line).map_or(self.left_out + 1, |()| 0);
    }
}

#[cfg(test)]
mod tests {
    use super::*;

    #[test]
    fn lines_that_have_no_room_are_counted() {
        let (lines, waiting) = sync_channel(2);
        let (left_out, (_, done)) = (0, channel());
        let mut output = Output { lines, left_out, done };
        for line in 0..5 {
            output.say(format_args!("line {line}"));
        }
        assert_eq!(output.left_out, 3);
        assert_eq!(
            [waiting.recv().unwrap(), waiting.recv().unwrap()],
            ["line 0\n", "line 1\n"]
        );
        output.say(format_args!("more"));
        assert_eq!(
            waiting.recv().unwrap(),
            "3 lines are left out, which nobody read\nmore\n"
        );
        assert_eq!(output.left_out, 0);
    }
}
