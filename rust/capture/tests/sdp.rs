//! Payload types and ports from a call's SDP.

use std::fs;
use std::path::Path;
use std::process::{Command, Output};

use capture::options::Options;
use capture::sdp::with_sdp;
use independent::transcript::transcript;

mod stored;

/// The examples of RFC 4103, section 10.
const ALONE: &str = "m=text 11000 RTP/AVP 98\na=rtpmap:98 t140/1000\n";
const REPEATED: &str = "m=text 11000 RTP/AVP 98 100\na=rtpmap:98 t140/1000\n\
                        a=rtpmap:100 red/1000\na=fmtp:100 98/98/98\n";
const LIMITED: &str = "m=text 11000 RTP/AVP 98 100\na=rtpmap:98 t140/1000\na=fmtp:98 cps=30\n\
                       a=rtpmap:100 red/1000\na=fmtp:100 98/98/98\n";

/// A call of sound and text.
const CALL: &str = "v=0\r\no=alice 1 1 IN IP4 192.0.2.1\r\ns=-\r\nc=IN IP4 192.0.2.1\r\nt=0 0\r\n\
    m=audio 7078 RTP/AVP 96 97\r\na=rtpmap:96 opus/48000/2\r\na=rtpmap:97 t140/1000\r\n\
    m=text 40001 RTP/AVP 112 111\r\na=rtpmap:111 T140/1000\r\na=rtpmap:112 RED/1000\r\n\
    a=fmtp:112 111/111/111\r\na=sendrecv\r\n\
    m=video 9078 RTP/AVP 98\r\na=rtpmap:98 red/1000\r\n";

type Settings = (u8, u8, Option<u16>);

fn settings(options: &Options, sdp: &str) -> (Settings, Vec<String>) {
    let (options, notes) = with_sdp(options, sdp).unwrap();
    let settings = (options.t140(), options.red(), options.sdp_port);
    (settings, notes)
}

fn wrong(options: &Options, sdp: &str) -> String {
    with_sdp(options, sdp).unwrap_err()
}

#[test]
fn whole_lines() {
    for (sdp, expected) in [
        (REPEATED, (98, 100, Some(11_000))),
        (LIMITED, (98, 100, Some(11_000))),
        (CALL, (111, 112, Some(40_001))),
        (&CALL.replace("\r\n", "\r"), (111, 112, Some(40_001))),
        (
            &CALL.replace("RTP/AVP", "RTP/AVPF"),
            (111, 112, Some(40_001)),
        ),
        (
            &format!("m=text 0 RTP/AVP 99\n{REPEATED}"),
            (98, 100, Some(11_000)),
        ),
    ] {
        let (settings, notes) = settings(&Options::default(), sdp);
        assert_eq!(settings, expected, "{sdp}");
        assert_eq!(notes, [""; 0], "{sdp}");
    }
}

#[test]
fn no_red() {
    for (sdp, expected) in [
        (ALONE.to_string(), (98, 100)),
        (ALONE.replace("98", "100"), (100, 98)),
    ] {
        let ((t140, red, port), notes) = settings(&Options::default(), &sdp);
        assert_eq!((t140, red), expected);
        assert_eq!(port, Some(11_000));
        assert_eq!(notes.len(), 1);
        assert!(notes[0].starts_with("the SDP has no red"), "{notes:?}");
    }
    let given = Options {
        red: Some(101),
        ..Options::default()
    };
    assert_eq!(settings(&given, ALONE), ((98, 101, Some(11_000)), vec![]));
}

#[test]
fn lacking_and_several() {
    let none = Options::default();
    for sdp in [
        "",
        "v=0\nm=audio 7078 RTP/AVP 0\n",
        "m=text 0 RTP/AVP 98\na=rtpmap:98 t140/1000",
    ] {
        assert!(
            wrong(&none, sdp).starts_with("no text line (m=text)"),
            "{sdp}"
        );
    }
    let unnamed = "m=text 11000 RTP/AVP 98\na=rtpmap:98 t140/8000\na=rtpmap:99 t140/1000\n";
    assert!(wrong(&none, unnamed).starts_with("no t140/1000 in the text line"));
    for line in [
        "m=text",
        "m=text x RTP/AVP 98",
        "m=text 70000 RTP/AVP 98",
        "m=text 5004/2 RTP/AVP 98",
    ] {
        assert!(wrong(&none, line).contains("is no text line"), "{line}");
    }
    let fixed = "m=text 11000 RTP/AVP 34\na=rtpmap:34 t140/1000\n";
    assert!(wrong(&none, fixed).ends_with("a payload type is from 96 to 127"));

    let two = format!("{REPEATED}{CALL}");
    assert_eq!(
        wrong(&none, &two),
        "2 text lines, of ports 11000, 40001; choose one by --port"
    );
    let port = Options {
        ports: vec![40_001],
        ..Options::default()
    };
    assert_eq!(settings(&port, &two), ((111, 112, None), vec![]));
    let types = "m=text 11000 RTP/AVP 98 99 100\na=rtpmap:98 t140/1000\na=rtpmap:99 t140/1000\n\
                 a=rtpmap:100 red/1000\na=fmtp:100 98/98\n";
    assert!(wrong(&none, types).contains("98, 99; choose one by --t140"));
    let given = Options {
        t140: Some(98),
        ..Options::default()
    };
    assert_eq!(settings(&given, types), ((98, 100, Some(11_000)), vec![]));
    let other = Options {
        t140: Some(99),
        ..Options::default()
    };
    let (_, notes) = settings(&other, types);
    assert!(notes[0].starts_with("the levels of red, a=fmtp:100 98/98, are not all"));
}

/// What is given stands, and what the SDP says is told.
#[test]
fn conflicts() {
    let given = Options {
        t140: Some(97),
        red: Some(96),
        ports: vec![5004, 5006],
        ..Options::default()
    };
    let (settings_, notes) = settings(&given, REPEATED);
    assert_eq!(settings_, (97, 96, None));
    assert_eq!(
        notes,
        [
            "--t140 97 stands, but the SDP says 98",
            "--red 96 stands, but the SDP says 100",
            "--port 5004, 5006 stands, but the SDP says 11000"
        ]
    );
    let same = Options {
        t140: Some(98),
        red: Some(100),
        ports: vec![11_000],
        ..Options::default()
    };
    assert_eq!(settings(&same, REPEATED), ((98, 100, None), vec![]));
    let crossed = Options {
        t140: Some(100),
        ..Options::default()
    };
    assert!(wrong(&crossed, REPEATED).contains("both have payload type 100"));
    let secret = CALL.replace("RTP/AVP", "RTP/SAVP");
    let (_, notes) = settings(&Options::default(), &secret);
    assert!(notes[0].contains("RTP/SAVP: its packets are encrypted"));
}

fn run(sdp: &str, arguments: &[&str]) -> Output {
    let name = format!("{}.sdp", arguments.join("_").replace('/', "_"));
    let path = Path::new(env!("CARGO_TARGET_TMPDIR")).join(name);
    fs::write(&path, sdp).unwrap();
    Command::new(env!("CARGO_BIN_EXE_capture-to-journal"))
        .arg("--sdp")
        .arg(path)
        .args(arguments)
        .current_dir(concat!(
            env!("CARGO_MANIFEST_DIR"),
            "/../../reference/captures"
        ))
        .output()
        .unwrap()
}

#[test]
fn command() {
    let capture = "ms2_red_typed1_lossy.pcap";
    let sdp = CALL.replace("111", "98").replace("112", "100");
    let output = run(&sdp, &[capture]);
    assert_eq!(String::from_utf8(output.stderr).unwrap(), "");
    assert_eq!(output.status.code(), Some(0));
    let printed = String::from_utf8(transcript(&output.stdout)).unwrap();
    assert_eq!(printed, stored::lossy());
    // Hex lines have no ports, whatever the SDP says.
    let hex = run(&sdp, &["ms2_red_typed1.hex"]);
    assert_eq!(hex.status.code(), Some(0));
    // Conflicts are told, and what is given stands.
    let output = run(&sdp, &["--port", "5004", capture]);
    assert_eq!(output.status.code(), Some(1));
    let said = String::from_utf8(output.stderr).unwrap();
    assert!(said.contains("no packet to take"), "{said}");
    assert!(
        said.contains("--port 5004 stands, but the SDP says 40001"),
        "{said}"
    );
    let output = run(&sdp.replace("98", "103"), &["--t140", "98", capture]);
    assert_eq!(output.status.code(), Some(0));
    let said = String::from_utf8(output.stderr).unwrap();
    assert!(
        said.contains("--t140 98 stands, but the SDP says 103"),
        "{said}"
    );
    // No text in the call.
    let output = run("v=0\n", &["--ssrc", "1", capture]);
    assert_eq!(output.status.code(), Some(1));
    let said = String::from_utf8(output.stderr).unwrap();
    assert!(said.contains(".sdp: no text line (m=text)"), "{said}");
}
