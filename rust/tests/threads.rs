//! Pools, sessions, streams and captures that pass from thread to thread.

use etherparse_proved::{Capture, CaptureWriter, Pool, SegmentFlags, Session, Stream};
use std::io::{Cursor, Read};
use std::sync::{Arc, Mutex};
use std::thread;

fn is_send<T: Send>() {}

/// Both fragments of an IPv4 datagram of 16 bytes of zeros, protocol 253, with this identification.
fn fragments(identification: u16) -> [Vec<u8>; 2] {
    [[0x20, 0], [0, 1]].map(|offset| {
        let mut frame = vec![2, 0, 0, 0, 0, 2, 2, 0, 0, 0, 0, 1, 8, 0, 0x45, 0, 0, 0x1c];
        frame.extend(identification.to_be_bytes());
        frame.extend(offset);
        frame.extend([0x40, 253, 0, 0, 10, 0, 0, 1, 10, 0, 0, 2]);
        frame.extend([0; 8]);
        frame
    })
}

#[test]
fn a_pool_and_a_session_are_moved() {
    is_send::<Pool>();
    is_send::<Session>();
    let [first, second] = fragments(1);
    let mut pool = Pool::new().unwrap();
    assert_eq!(pool.add(&first, 1, 0), Ok(None));
    let mut session = Session::open().unwrap();
    assert_eq!(session.feed(b"?"), Ok(Vec::new()));
    let moved = thread::spawn(move || {
        let message = pool.add(&second, 2, 0).unwrap().unwrap();
        assert_eq!(session.feed(b"\n?"), Ok(b"bad line\n".to_vec()));
        (message, pool, session)
    });
    let (message, mut pool, session) = moved.join().unwrap();
    assert_eq!((message.number, message.bytes), (253, vec![0; 16]));
    assert_eq!(pool.open_len(), 0);
    assert_eq!(session.finish(), Ok(b"bad line\n".to_vec()));
}

#[test]
fn a_capture_and_a_stream_are_moved() {
    is_send::<Capture<Cursor<Vec<u8>>>>();
    is_send::<Stream>();
    let mut writer = CaptureWriter::new(Vec::new()).unwrap();
    for byte in 1..=3 {
        writer.write(0, &[byte], 1).unwrap();
    }
    let mut capture = Capture::new(Cursor::new(writer.into_inner())).unwrap();
    assert_eq!(capture.next().unwrap().unwrap().bytes, [1]);
    let mut stream = Stream::new(100).unwrap();
    let flags = SegmentFlags { syn: false, ack: true, fin: false, rst: false };
    stream.add(7, flags, b"ab").unwrap();
    let moved = thread::spawn(move || {
        assert_eq!(capture.next().unwrap().unwrap().bytes, [2]);
        stream.add(9, flags, b"c").unwrap();
        (capture, stream)
    });
    let (mut capture, mut stream) = moved.join().unwrap();
    assert_eq!(capture.next().unwrap().unwrap().bytes, [3]);
    assert!(capture.next().is_none());
    let mut text = Vec::new();
    stream.read_to_end(&mut text).unwrap();
    assert_eq!(text, b"abc");
}

#[test]
fn threads_share_a_locked_pool() {
    let pool = Arc::new(Mutex::new(Pool::new().unwrap()));
    let threads = (0..4).map(|channel| {
        let pool = Arc::clone(&pool);
        thread::spawn(move || {
            let mut messages = 0;
            for identification in 0..1000 {
                for fragment in fragments(identification) {
                    messages += u32::from(pool.lock().unwrap().add(&fragment, 1, channel).unwrap().is_some());
                }
            }
            messages
        })
    });
    let threads: Vec<_> = threads.collect();
    let messages: Vec<u32> = threads.into_iter().map(|thread| thread.join().unwrap()).collect();
    assert_eq!(messages, [1000; 4]);
    assert_eq!(pool.lock().unwrap().open_len(), 0);
}

#[test]
fn messages_of_frames() {
    let mut pool = Pool::new().unwrap();
    let frames = (0..3).flat_map(fragments).chain([vec![0; 13]]).map(|frame| (frame, 1, 0));
    let messages: Vec<_> = pool.messages(frames).collect();
    assert_eq!(messages.len(), 4);
    assert!(messages[..3].iter().all(|message| message.as_ref().unwrap().bytes == [0; 16]));
    let error: Box<dyn std::error::Error> = messages[3].clone().unwrap_err().into();
    assert!(error.source().is_some());
}
