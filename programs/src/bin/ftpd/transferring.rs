//! A session's transfer: beside it only ABOR and STAT are answered.
use crate::control::Control;
use crate::record::{Action, Outcome};
use crate::session::{log, End, Session};
use crate::transfer::{Fault, Transfer, Work};
use crate::GRACE;
use std::future::Future;
use std::pin::pin;
use std::sync::atomic::{AtomicU64, Ordering};
use std::sync::Arc;
use std::time::Duration;
use tokio::sync::Notify;
use tokio::time::error::Elapsed;
use tokio::time::{sleep_until, timeout, Instant};
use unftp_control::{Command, Event, Reply, ReplyCode as Code};
use unftp_control_programs::listening::Stop;

/// How long a transfer may take to end after ABOR: it may wait for a disk.
const ABORTING: Duration = Duration::from_secs(5);

/// How a transfer ends whose client is there.
enum Ended {
    /// By itself.
    Done(Result<(), Fault>),
    /// By ABOR.
    Aborted,
    /// By the end of the program.
    Stopped,
}

impl Ended {
    fn reply(&self) -> Reply {
        match self {
            Ended::Done(Ok(())) => Reply::new(Code::CLOSING_DATA_CONNECTION, "Transfer complete"),
            Ended::Done(Err(fault)) => fault.reply(),
            Ended::Aborted => Reply::new(Code::CONNECTION_CLOSED, "Aborted"),
            Ended::Stopped => {
                Reply::new(Code::CONNECTION_CLOSED, "Aborted, since the server stops")
            }
        }
    }

    fn outcome(&self) -> Outcome {
        let error = match self {
            Ended::Done(Err(fault)) => Some(fault.to_string()),
            _ => None,
        };
        Outcome::of(&self.reply(), error)
    }
}

impl Session {
    /// Transfers, sends the reply, and logs what came of it.
    pub async fn transfer(
        &mut self,
        control: &mut Control,
        work: Work,
        action: Option<Action>,
    ) -> Result<(), End> {
        let count = Arc::new(AtomicU64::new(0));
        let ended = self.run_transfer(control, work, &count).await;
        let outcome = ended.as_ref().map_or_else(|_| Outcome::gone(), Ended::outcome);
        let replied = match ended {
            Ok(ended) => {
                control.reply(ended.reply())?;
                match ended {
                    Ended::Done(_) => control.flush().await.map_err(End::from),
                    // the reply to ABOR follows at once
                    Ended::Aborted => Ok(()),
                    Ended::Stopped => Err(End::Unavailable("Stopping")),
                }
            }
            Err(end) => Err(end),
        };
        if let Some(action) = action {
            action.log(self, count.load(Ordering::Relaxed), &outcome);
        }
        replied
    }

    /// Transfers. A client that aborts or is lost ends it. Other lines wait.
    async fn run_transfer(
        &mut self,
        control: &mut Control,
        work: Work,
        count: &Arc<AtomicU64>,
    ) -> Result<Ended, End> {
        control.flush().await?;
        let abort = Notify::new();
        let opening = self.data_port.open_std(self.server.settings.stall);
        let mut running = pin!(self.next_transfer(count.clone()).run(opening, work, &abort));
        let mut stopping = pin!(stopping(self.stop.clone()));
        loop {
            tokio::select! {
                done = &mut running => return Ok(Ended::Done(done)),
                line = control.line_in_transfer(), if control.may_wait() => {
                    let line = match line {
                        Ok(line) => line,
                        Err(lost) => {
                            let _ = end_early(&abort, running).await;
                            return Err(lost.into());
                        }
                    };
                    match line.event {
                        Event::Command(Command::Abor) => {
                            control.wait(line);
                            return Ok(aborted(end_early(&abort, running).await));
                        }
                        Event::Command(Command::Stat { path: None }) if !control.has_waiting() => {
                            log(&line);
                            control.reply(status(count.load(Ordering::Relaxed)))?;
                            control.flush().await?;
                        }
                        _ => control.wait(line),
                    }
                }
                () = &mut stopping => return Ok(Ended::Stopped),
            }
        }
    }

    /// The next transfer.
    fn next_transfer(&self, count: Arc<AtomicU64>) -> Transfer {
        Transfer {
            tls: self.data_tls.clone().filter(|_| self.is_private),
            stall: self.server.settings.stall,
            count,
        }
    }
}

/// Tells a transfer to abort, and waits some time for its end: all that it has moved is counted then.
async fn end_early(
    abort: &Notify,
    running: impl Future<Output = Result<(), Fault>>,
) -> Result<Result<(), Fault>, Elapsed> {
    abort.notify_one();
    timeout(ABORTING, running).await
}

/// How a transfer ends after ABOR, where it ends in time: it may have been complete already.
fn aborted(ended: Result<Result<(), Fault>, Elapsed>) -> Ended {
    match ended {
        Ok(Ok(())) => Ended::Done(Ok(())),
        _ => Ended::Aborted,
    }
}

/// Ends some time after the program is to end.
async fn stopping(mut stop: Stop) {
    let _ = stop.changed().await;
    sleep_until(Instant::now() + GRACE).await;
}

fn status(count: u64) -> Reply {
    Reply::new(Code::SYSTEM_STATUS, format!("A transfer is under way: {count} bytes so far"))
}
