//! Files of nets: their names, and that nothing is written outside the folder.

use super::{antenna, folder_of, names_in};
use std::fs;
use std::os::unix::fs::symlink;

fn net(name: &[u8]) -> Vec<u8> {
    [b"- ", name, b" + ROUTED metal1 ( 0 0 ) ( 9 0 ) ;\n"].concat()
}

/// Names that would leave the folder if they were taken as they are, and their files.
const HOSTILE: [(&[u8], &str); 13] = [
    (b"../x", "%2E%2E%2Fx.net"),
    (b"/etc/x", "%2Fetc%2Fx.net"),
    (b".", "%2E.net"),
    (b"..", "%2E%2E.net"),
    (b"a/b", "a%2Fb.net"),
    (b"a%2Fb", "a%252Fb.net"),
    (b"a\0b", "a%00b.net"),
    (b"\x01\xff\x1b", "%01%FF%1B.net"),
    (b"bus[3]", "bus%5B3%5D.net"),
    (b"bus\\[3\\]", "bus%5C%5B3%5C%5D.net"),
    (b"A_a-9$", "A_a-9$.net"),
    (b"~", "%7E.net"),
    (b".new-1", "%2Enew-1.net"),
];

#[test]
fn names_of_files() {
    let outer = folder_of("names");
    let folder = outer.join("in");
    let text: Vec<u8> = HOSTILE.iter().flat_map(|(name, _)| net(name)).collect();
    let ran = antenna(&["-", "-o", folder.to_str().unwrap()], &text);
    assert_eq!((ran.status, ran.errors.as_str()), (Some(0), ""));
    let mut expected: Vec<&str> = HOSTILE.iter().map(|(_, file)| *file).collect();
    expected.sort();
    assert_eq!(names_in(&folder), expected);
    assert_eq!(names_in(&outer), ["in"]);
}

#[test]
fn long_names() {
    let folder = folder_of("long");
    let [fits, over, wide] = [vec![b'a'; 251], vec![b'a'; 252], vec![b'.'; 84]];
    let text = [
        net(&fits),
        net(&over),
        net(&wide),
        net(&[b'b'; 300]),
        net(b"c"),
    ]
    .concat();
    let ran = antenna(&["-", "-o", folder.to_str().unwrap()], &text);
    assert_eq!(ran.status, Some(2));
    let a = String::from_utf8(fits).unwrap();
    assert_eq!(names_in(&folder), [format!("{a}.net"), "c.net".into()]);
    let errors: Vec<&str> = ran.errors.lines().collect();
    assert_eq!(errors.len(), 3);
    for (error, line) in errors.iter().zip(2..) {
        assert!(
            error.starts_with(&format!("antenna: -:{line}:3: net '")),
            "{error}"
        );
        assert!(
            error.ends_with("': its name is too long for a file"),
            "{error}"
        );
    }
    // without files the name does not matter
    assert_eq!(antenna(&["-"], &text).status, Some(0));
}

#[test]
fn two_nets_of_one_name() {
    let folder = folder_of("twice");
    let text = [
        net(b"a"),
        net(b"a"),
        b"+ ROUTED metal1 ( 0 0 ) ( 7 0 ) ;\n".to_vec(),
        net(b"2"),
    ]
    .concat();
    let ran = antenna(&["-", "-o", folder.to_str().unwrap()], &text);
    assert_eq!(ran.status, Some(2));
    assert_eq!(names_in(&folder), ["2.net", "a.net"]);
    assert_eq!(
        ran.errors,
        "antenna: -:2:3: net 'a': another net has this name already\n\
         antenna: -:4:3: net '2': another net has this name already\n"
    );
}

/// What stands at a file's name is replaced; a link there is not followed, and a folder there is an error.
#[test]
fn what_stands_there_already() {
    let outer = folder_of("links");
    let folder = outer.join("in");
    fs::create_dir_all(&folder).unwrap();
    let target = outer.join("target");
    fs::write(&target, "kept").unwrap();
    symlink(&target, folder.join("link.net")).unwrap();
    symlink(outer.join("none"), folder.join("dangling.net")).unwrap();
    fs::write(folder.join("old.net"), "old").unwrap();
    let text = [net(b"link"), net(b"dangling"), net(b"old")].concat();
    let ran = antenna(&["-", "-o", folder.to_str().unwrap()], &text);
    assert_eq!((ran.status, ran.errors.as_str()), (Some(0), ""));
    assert_eq!(fs::read(&target).unwrap(), b"kept");
    assert_eq!(names_in(&outer), ["in", "target"]);
    assert_eq!(names_in(&folder), ["dangling.net", "link.net", "old.net"]);
    for name in names_in(&folder) {
        let path = folder.join(name);
        assert!(fs::symlink_metadata(&path).unwrap().is_file());
        assert_eq!(fs::read(&path).unwrap()[..2], [1, 0]);
    }
    fs::create_dir(folder.join("b.net")).unwrap();
    let ran = antenna(&["-", "-o", folder.to_str().unwrap()], &net(b"b"));
    assert_eq!(ran.status, Some(2));
    let told = format!("antenna: {}: ", folder.join("b.net").display());
    assert!(ran.errors.starts_with(&told), "{}", ran.errors);
    assert_eq!(names_in(&folder).len(), 4);
}

#[test]
fn folder_that_cannot_be_made() {
    for folder in ["/dev/null", "/dev/null/in", "/proc/none"] {
        let ran = antenna(&["-", "-o", folder], &net(b"a"));
        assert_eq!((ran.status, ran.text.as_str()), (Some(2), ""));
        assert!(
            ran.errors.starts_with(&format!("antenna: {folder}: ")),
            "{}",
            ran.errors
        );
    }
}
