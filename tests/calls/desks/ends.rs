//! How sessions end: clients that go, half and long lines, stops, rests, and output that fails.
use crate::desks::pipes::{Pipe, PipeReader, Service};
use client_desks::{
    Arrival, Desk, DeskReader, DeskWriter, Desks, FramesEnd, InputEnd, Rest, read_frames,
};
use client_frames::PIECE_BYTES;
use std::alloc::Global;
use std::io::{BufReader, ErrorKind, Read, Write};
use std::sync::Wait;
use std::test::Fail;
use std::thread::{Threads, join};

// what one thread does at two desks, while another delivers the frames that come through a pipe
struct Scene<'a, R> {
    rt: &'a R,
    alloc: Global,
    service: &'a Service<'a, R>,
    input: &'a Pipe,
    output: &'a Pipe,
    desks: &'a Desks,
    first: Desk<'a>,
    second: Desk<'a>,
}

impl<'a, R> Drop for Scene<'a, R> {
    fn drop(self) {
        let Scene {
            rt: _,
            alloc: _,
            service: _,
            input: _,
            output: _,
            desks: _,
            first: _,
            second: _,
        } = self;
    }
}

type Reader<'a, R> = DeskReader<'a, Service<'a, R>>;

impl<'a, R: Wait> Scene<'a, R> {
    // these frames are on the desks: a client that came to the second desk after them has been seen
    fn deliver(&self, frames: &[u8]) -> Result<(), Fail> {
        self.input.put(self.rt, frames)?;
        self.input.put(self.rt, b"open 1\n")?;
        if self.second.wait(self.service) != Arrival::Client {
            return Err(Fail::from("no client at the second desk"));
        }
        self.second.clear(self.service);
        Ok(())
    }

    fn reader(&self) -> Reader<'a, R> {
        DeskReader::new(self.service, self.alloc, self.first)
    }

    // whether the next read hands out just this
    fn reads(&self, reader: &mut Reader<'a, R>, text: &[u8]) -> Result<bool, Fail> {
        let mut buffer = [0; 64];
        let count = reader.read(&mut buffer)?;
        Ok(&buffer[..count] == text)
    }

    // whether the next read ends for this reason, and the one after it too
    fn ends(&self, reader: &mut Reader<'a, R>, why: InputEnd) -> Result<bool, Fail> {
        let ended = self.reads(reader, b"")? && self.reads(reader, b"")?;
        Ok(ended && reader.end() == Some(why))
    }

    // how a reply of this text fails, if it does
    fn failure(&self, text: &[u8]) -> Result<Option<ErrorKind>, Fail> {
        let mut writer = DeskWriter::new(self.service, self.alloc, self.first);
        writer.write_all(text)?;
        Ok(writer.flush().err().map(|why| why.kind()))
    }
}

// plays a scene; false if something in it isn't as it should be
fn play<R, F>(rt: &R, alloc: Global, scene: F) -> Result<(FramesEnd, bool), Fail>
where
    R: Threads + Wait + Sync,
    F: FnOnce(&Scene<'_, R>) -> Result<bool, Fail>,
{
    let input = Pipe::new(alloc);
    let output = Pipe::new(alloc);
    let service = Service {
        rt,
        output: &output,
    };
    let desks = Desks::new(alloc, 2)?;
    let (Some(first), Some(second)) = (desks.desk(0), desks.desk(1)) else {
        return Err(Fail::from("no desk"));
    };
    let frames = || {
        let Ok(mut reader) = BufReader::new(alloc, PipeReader { rt, pipe: &input }) else {
            return FramesEnd::NoMemory;
        };
        read_frames(&service, alloc, &desks, &mut reader)
    };
    let sessions = || {
        let whole = Scene {
            rt,
            alloc,
            service: &service,
            input: &input,
            output: &output,
            desks: &desks,
            first,
            second,
        };
        let as_wanted = scene(&whole);
        input.close(rt);
        as_wanted
    };
    let (end, as_wanted) = join(rt, frames, sessions);
    Ok((end, as_wanted?))
}

// a client that has gone gets no line that it sent before
fn client_goes<R: Wait>(scene: &Scene<'_, R>) -> Result<bool, Fail> {
    scene.deliver(b"open 0\ndata 0 4\na\nb\ngone 0\n")?;
    let came = scene.first.wait(scene.service) == Arrival::Client;
    let mut reader = scene.reader();
    let ended = scene.ends(&mut reader, InputEnd::Gone)?;
    let over = scene.first.is_over(scene.service) && !scene.first.has_line(scene.service);
    let failed = scene.failure(b"ok\n")? == Some(ErrorKind::BrokenPipe);
    scene.first.clear(scene.service);
    Ok(came && ended && over && failed)
}

#[test]
fn a_client_that_goes_gets_no_further_line(rt: HostRuntime) -> Result<(), Fail> {
    let played = play(&rt, rt.alloc(), |scene| client_goes(scene))?;
    assert!(&rt; played == (FramesEnd::Ended, true));
    Ok(())
}

// one line a read, and half a line at the end
fn client_ends<R: Wait>(scene: &Scene<'_, R>) -> Result<bool, Fail> {
    scene.deliver(b"open 0\ndata 0 7\na\nbc\n\ndend 0\n")?;
    let came = scene.first.wait(scene.service) == Arrival::Client;
    let waits = scene.first.has_line(scene.service);
    let mut reader = scene.reader();
    let lines = scene.reads(&mut reader, b"a\n")?
        && scene.reads(&mut reader, b"bc\n")?
        && scene.reads(&mut reader, b"\n")?;
    let none = !scene.first.has_line(scene.service) && !scene.first.is_over(scene.service);
    Ok(came && waits && lines && none && scene.ends(&mut reader, InputEnd::HalfLine)?)
}

#[test]
fn a_read_hands_out_one_line(rt: HostRuntime) -> Result<(), Fail> {
    let played = play(&rt, rt.alloc(), |scene| client_ends(scene))?;
    assert!(&rt; played == (FramesEnd::Ended, true));
    Ok(())
}

// a line that goes on: 64 pieces are as long as a line may be
fn line_goes_on<R: Threads + Wait + Sync>(scene: &Scene<'_, R>) -> Result<bool, Fail> {
    scene.input.put(scene.rt, b"open 0\n")?;
    let came = scene.first.wait(scene.service) == Arrival::Client;
    let mut frame = Vec::new(scene.alloc);
    write!(frame, "data 0 {PIECE_BYTES}\n")?;
    for _ in 0..PIECE_BYTES {
        frame.push(b'x')?;
    }
    let (asked, ended) = join(
        scene.rt,
        || send_often(scene, &frame),
        || {
            let mut reader = scene.reader();
            scene.ends(&mut reader, InputEnd::TooLong)
        },
    );
    let ended = ended?;
    Ok(came && asked && ended)
}

// sends a frame 65 times; false if the service doesn't ask for more each time
fn send_often<R: Wait>(scene: &Scene<'_, R>, frame: &[u8]) -> bool {
    let mut answers = PipeReader {
        rt: scene.rt,
        pipe: scene.output,
    };
    let mut answer = [0; 7];
    for _ in 0..65 {
        if scene.input.put(scene.rt, frame).is_err() || answers.read_exact(&mut answer).is_err() {
            return false;
        }
        if &answer != b"more 0\n" {
            return false;
        }
    }
    true
}

#[test]
fn a_line_that_goes_on_is_too_long(rt: HostRuntime) -> Result<(), Fail> {
    let played = play(&rt, rt.alloc(), |scene| line_goes_on(scene))?;
    assert!(&rt; played == (FramesEnd::Ended, true));
    Ok(())
}

// a stop ends the lines, and lets one reply out whose desk is free
fn service_stops<R: Wait>(scene: &Scene<'_, R>) -> Result<bool, Fail> {
    scene.deliver(b"open 0\ndata 0 4\na\nb\n")?;
    let came = scene.first.wait(scene.service) == Arrival::Client;
    let mut reader = scene.reader();
    let line = scene.reads(&mut reader, b"a\n")?;
    scene.desks.stop(scene.service);
    let ended = scene.ends(&mut reader, InputEnd::Stopped)?;
    let over = scene.first.is_over(scene.service) && !scene.first.has_line(scene.service);
    let last = scene.failure(b"last\n")?.is_none();
    let none = scene.failure(b"none\n")? == Some(ErrorKind::BrokenPipe);
    scene.desks.rest(scene.service, Rest::Now);
    let stays = scene.first.wait(scene.service) == Arrival::Stop;
    Ok(came && line && ended && over && last && none && stays)
}

#[test]
fn a_stop_ends_sessions(rt: HostRuntime) -> Result<(), Fail> {
    let played = play(&rt, rt.alloc(), |scene| service_stops(scene))?;
    assert!(&rt; played == (FramesEnd::Ended, true));
    Ok(())
}

// a rest soon leaves a session alone that may not rest; what it didn't get is there for the next one
fn session_rests<R: Wait>(scene: &Scene<'_, R>) -> Result<bool, Fail> {
    scene.deliver(b"open 0\ndata 0 9\na\nbc\nd\ne\n")?;
    let came = scene.first.wait(scene.service) == Arrival::Client;
    let mut reader = scene.reader();
    let first = scene.reads(&mut reader, b"a\n")?;
    scene.desks.rest(scene.service, Rest::Soon);
    reader.may_rest = false;
    let second = scene.reads(&mut reader, b"bc\n")?;
    reader.may_rest = true;
    let rests = scene.ends(&mut reader, InputEnd::Rest)?;
    scene.first.park(scene.service, 7, 3);
    let resting = scene.first.wait(scene.service) == Arrival::Rest
        && scene.desks.rest_asked(scene.service) == Some(Rest::Soon);
    scene.desks.begin_generation(scene.service);
    let resumed = scene.first.wait(scene.service) == Arrival::Resumed { moment: 7, line: 3 }
        && scene.desks.rest_asked(scene.service).is_none();
    let mut reader = scene.reader();
    let third = scene.reads(&mut reader, b"d\n")?;
    Ok(came && first && second && rests && resting && resumed && third && rests_now(scene)?)
}

// a rest at once ends a session that may not rest too, and stays one
fn rests_now<R: Wait>(scene: &Scene<'_, R>) -> Result<bool, Fail> {
    let mut reader = scene.reader();
    reader.may_rest = false;
    scene.desks.rest(scene.service, Rest::Now);
    scene.desks.rest(scene.service, Rest::Soon);
    let waits = scene.first.has_line(scene.service);
    let rests = scene.ends(&mut reader, InputEnd::Rest)?;
    Ok(!waits && rests && scene.desks.rest_asked(scene.service) == Some(Rest::Now))
}

#[test]
fn a_rest_keeps_what_comes_after(rt: HostRuntime) -> Result<(), Fail> {
    let played = play(&rt, rt.alloc(), |scene| session_rests(scene))?;
    assert!(&rt; played == (FramesEnd::Ended, true));
    Ok(())
}

// output that fails stops all sessions
fn output_fails<R: Wait>(scene: &Scene<'_, R>) -> Result<bool, Fail> {
    scene.deliver(b"open 0\ndata 0 2\na\n")?;
    let came = scene.first.wait(scene.service) == Arrival::Client;
    let mut reader = scene.reader();
    let line = scene.reads(&mut reader, b"a\n")? && !scene.desks.has_failed(scene.service);
    scene.output.close(scene.rt);
    let failed = scene.failure(b"ok\n")? == Some(ErrorKind::BrokenPipe);
    let stops = scene.second.wait(scene.service) == Arrival::Stop;
    let ended = scene.ends(&mut reader, InputEnd::Stopped)?;
    Ok(came && line && failed && stops && ended && scene.desks.has_failed(scene.service))
}

#[test]
fn output_that_fails_stops_all(rt: HostRuntime) -> Result<(), Fail> {
    let played = play(&rt, rt.alloc(), |scene| output_fails(scene))?;
    assert!(&rt; played == (FramesEnd::Ended, true));
    Ok(())
}
