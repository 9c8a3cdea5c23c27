//! Calls of the library, also side by side.
use aamediate::{check, policy_ask, policy_check, policy_diff, replay, run, Cause};
use std::thread;

const JOB: &str = r#"{"policy":"profile web { /srv/** r, }","tasks":[{"label":"web","requests":[
    {"file":"/srv/a","mask":"r"},{"file":"/etc/a","mask":"r"}]}]}"#;

#[test]
fn a_job_is_answered() {
    let text = String::from_utf8(run(JOB.as_bytes()).unwrap()).unwrap();
    let lines: Vec<&str> = text.lines().collect();
    assert_eq!(lines[0], "0 0 granted label=\"web\"");
    assert_eq!(lines[1], "0 1 denied label=\"web\"");
    assert!(lines[2].contains("apparmor=\"DENIED\""), "{}", lines[2]);
    assert_eq!(
        check(JOB.as_bytes()).unwrap(),
        b"ok 1 profiles 1 file rules 0 passed over\n"
    );
}

#[test]
fn what_is_no_job_is_refused() {
    for call in [check, run, replay] {
        for bytes in [&b""[..], b"{", b"\xff\xfe", b"[]"] {
            let fault = call(bytes).unwrap_err();
            assert_eq!(fault.cause, Cause::Refused);
            assert!(fault.line.starts_with("job "), "{}", fault.line);
        }
    }
}

#[test]
fn a_question_is_answered() {
    let question = br#"{"files":[{"name":"web","text":"profile web { /srv/** r, }"}],"words":["r:/srv/a","r:/etc/a"]}"#;
    let found = policy_ask(question).unwrap();
    let text = String::from_utf8(found.text).unwrap();
    assert_eq!((found.status, found.said.as_str()), (4, ""));
    assert!(text.contains(r#""request":"r:/srv/a","profile":"web","granted":true"#));
    assert!(text.contains(r#""request":"r:/etc/a","profile":"web","granted":false"#));
    assert_eq!(policy_check(question).unwrap().status, 0);
}

#[test]
fn two_policies_are_compared() {
    let question = br#"{"old":{"files":[{"name":"a","text":"profile web { /srv/a r, }"}]},"new":{"files":[{"name":"b","text":"profile web { /srv/a rw, }"}]}}"#;
    let found = policy_diff(question).unwrap();
    let text = String::from_utf8(found.text).unwrap();
    assert_eq!(found.status, 4);
    assert!(text.starts_with(r#"{"old":["a"],"new":["b"],"gains_alone":false,"lines":[{"profile":"web","sign":"+","request":"w:/srv/a""#), "{text}");
    let fault = policy_diff(br#"{"old":{"files":[]}}"#).unwrap_err();
    assert_eq!(fault.cause, Cause::NoQuestion);
    assert!(fault.line.contains("understood: old.files"), "{}", fault.line);
}

#[test]
fn what_is_no_question_is_refused() {
    for (given, said) in [
        (&b"{"[..], "no JSON"),
        (b"[]", "no object"),
        (br#"{"file":[]}"#, "unknown member: file"),
        (br#"{"files":[]}"#, "understood: files"),
    ] {
        let fault = policy_ask(given).unwrap_err();
        assert_eq!(fault.cause, Cause::NoQuestion);
        assert!(fault.line.contains(said), "{}", fault.line);
    }
}

#[test]
fn a_long_text_comes_whole() {
    let requests = vec![r#"{"file":"/etc/a","mask":"r"}"#; 4096].join(",");
    let job = format!(
        r#"{{"policy":"profile web {{ }}","tasks":[{{"label":"web","requests":[{requests}]}}]}}"#
    );
    let text = run(job.as_bytes()).unwrap();
    assert_eq!(text.iter().filter(|byte| **byte == b'\n').count(), 2 * 4096);
}

#[test]
fn eight_threads_call_at_once() {
    let wanted = run(JOB.as_bytes());
    thread::scope(|scope| {
        for _ in 0..8 {
            scope.spawn(|| {
                for _ in 0..100 {
                    assert_eq!(run(JOB.as_bytes()), wanted);
                }
            });
        }
    });
}
