//! Sessions that wait for news at their desks, and what ends that.
use crate::desks::echoes::{Turn, talk};
use crate::desks::pipes::{Pipe, PipeReader, Service};
use client_desks::{
    Arrival, Desk, DeskReader, DeskWriter, Desks, FramesEnd, NewsWait, Rest, read_frames,
};
use std::alloc::Global;
use std::io::{self, BufRead, BufReader, Write};
use std::sync::Wait;
use std::test::Fail;
use std::thread::{Threads, join};

// what one who follows is told
fn reply<W: Write>(writer: &mut W, text: &[u8]) -> io::Result<()> {
    writer.write_all(text)?;
    writer.flush()
}

// after each line tells of news as they come, up to what ends that; at a rest, up to the end of all other sessions
fn follow<R: Wait + Print>(rt: &R, alloc: Global, desk: Desk<'_>) -> io::Result<()> {
    let mut reader = BufReader::new(alloc, DeskReader::new(rt, alloc, desk))?;
    let mut writer = DeskWriter::new(rt, alloc, desk);
    let mut line = Vec::new(alloc);
    'lines: for _ in 0..u64::MAX {
        line.clear();
        if reader.read_until(b'\n', &mut line)? == 0 {
            break;
        }
        desk.follow(rt);
        let mut known = desk.news();
        let mut knows_end = false;
        reply(&mut writer, b"watching\n")?;
        'news: for _ in 0..u64::MAX {
            match desk.wait_for_news(rt, known, knows_end) {
                NewsWait::Client => break,
                NewsWait::Ending => {
                    knows_end = true;
                    reply(&mut writer, b"ending\n")?;
                }
                NewsWait::News if knows_end && desk.is_followed_alone() => break,
                NewsWait::News => {
                    known = desk.news();
                    reply(&mut writer, b"news\n")?;
                }
            }
        }
        desk.unfollow();
        reply(&mut writer, b"followed\n")?;
    }
    Ok(())
}

// at each line tells news to all desks, or asks for a rest if it is `rest`
fn tell<R: Wait + Print>(rt: &R, alloc: Global, desks: &Desks, desk: Desk<'_>) -> io::Result<()> {
    let mut reader = BufReader::new(alloc, DeskReader::new(rt, alloc, desk))?;
    // it goes on after it has asked for a rest
    reader.get_mut().may_rest = false;
    let mut line = Vec::new(alloc);
    'lines: for _ in 0..u64::MAX {
        line.clear();
        if reader.read_until(b'\n', &mut line)? == 0 {
            break;
        }
        if line.as_slice() == b"rest\n".as_slice() {
            desks.rest(rt, Rest::Soon);
        } else {
            desks.tell_news(rt);
        }
    }
    Ok(())
}

// plays a talk with one who follows at the first desk, and one who tells at the second
fn play<R: Threads + Wait + Sync>(
    rt: &R,
    alloc: Global,
    words: &[Turn],
) -> Result<(FramesEnd, Option<String>), Fail> {
    let input = Pipe::new(alloc);
    let output = Pipe::new(alloc);
    let service = Service {
        rt,
        output: &output,
    };
    let desks = Desks::new(alloc, 2)?;
    let (Some(first), Some(second)) = (desks.desk(0), desks.desk(1)) else {
        return Err(Fail::from("no desk"));
    };
    let frames = || {
        let Ok(mut reader) = BufReader::new(alloc, PipeReader { rt, pipe: &input }) else {
            return FramesEnd::NoMemory;
        };
        let end = read_frames(&service, alloc, &desks, &mut reader);
        output.close(rt);
        end
    };
    let follower = || {
        if first.wait(&service) == Arrival::Client {
            let _ = follow(&service, alloc, first);
            first.clear(&service);
        }
    };
    let teller = || {
        if second.wait(&service) == Arrival::Client {
            let _ = tell(&service, alloc, &desks, second);
            second.clear(&service);
        }
    };
    let broker = || {
        let difference = talk(rt, alloc, &input, &output, words);
        input.close(rt);
        difference
    };
    let sessions = || {
        let _ = join(rt, follower, teller);
    };
    let ((end, _), difference) = join(rt, || join(rt, frames, sessions), broker);
    Ok((end, difference?))
}

// one who follows, and one who has told news twice
const NEWS: [Turn; 3] = [
    (
        b"open 0\ndata 0 2\na\n",
        &["more 0", "data 0 \"watching\\n\""],
    ),
    (
        b"more 0\nopen 1\ndata 1 2\nb\n",
        &["more 1", "data 0 \"news\\n\""],
    ),
    (b"more 0\ndata 1 2\nc\n", &["more 1", "data 0 \"news\\n\""]),
];

// plays these words after news were told, and compares what comes
fn ends_so(rt: &(impl Threads + Wait + Sync), alloc: Global, words: &[Turn]) -> Result<(), Fail> {
    let mut all = Vec::new(alloc);
    for turn in NEWS.iter().chain(words.iter()) {
        all.push(*turn)?;
    }
    let (end, difference) = play(rt, alloc, &all)?;
    match (end, difference) {
        (FramesEnd::Ended, None) => Ok(()),
        _ => Err(Fail::from("something else came")),
    }
}

#[test]
fn a_byte_ends_the_wait_for_news(rt: HostRuntime) -> Result<(), Fail> {
    let words: [Turn; 3] = [
        (b"more 0\ndata 0 1\nx", &["data 0 \"followed\\n\""]),
        // what was sent is read afterwards
        (b"more 0\n", &["more 0"]),
        (b"data 0 1\n\n", &["more 0", "data 0 \"watching\\n\""]),
    ];
    ends_so(&rt, rt.alloc(), &words)
}

#[test]
fn bytes_that_lie_there_end_the_wait(rt: HostRuntime) -> Result<(), Fail> {
    let words: [Turn; 3] = [
        (b"more 0\ndata 0 3\nx\ny", &["data 0 \"followed\\n\""]),
        (b"more 0\n", &["more 0", "data 0 \"watching\\n\""]),
        // a part of a line was taken with the line before it
        (b"more 0\n", &["data 0 \"followed\\n\""]),
    ];
    ends_so(&rt, rt.alloc(), &words)
}

#[test]
fn an_end_ends_the_wait_for_news(rt: HostRuntime) -> Result<(), Fail> {
    let words: [Turn; 2] = [
        (b"more 0\nend 0\n", &["data 0 \"followed\\n\""]),
        (b"more 0\n", &["end 0"]),
    ];
    ends_so(&rt, rt.alloc(), &words)
}

#[test]
fn a_client_that_goes_ends_the_wait_for_news(rt: HostRuntime) -> Result<(), Fail> {
    let words: [Turn; 1] = [(b"more 0\ngone 0\n", &["end 0"])];
    ends_so(&rt, rt.alloc(), &words)
}

#[test]
fn a_rest_ends_the_wait_for_news_after_all_others(rt: HostRuntime) -> Result<(), Fail> {
    let words: [Turn; 3] = [
        (
            b"more 0\ndata 1 5\nrest\n",
            &["more 1", "data 0 \"ending\\n\""],
        ),
        // the other session goes on, and tells news
        (b"more 0\ndata 1 2\nd\n", &["more 1", "data 0 \"news\\n\""]),
        (b"more 0\nend 1\n", &["end 1", "data 0 \"followed\\n\""]),
    ];
    ends_so(&rt, rt.alloc(), &words)
}
