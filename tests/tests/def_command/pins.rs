//! Pins and obstacles beside the text, in its own coordinates.

use super::{antenna, folder_of, Ran};
use antenna_tests::reference::net::{net_of, Net, Obstacle};
use std::fs;

const TEXT: &str = "\
DIEAREA ( -100 -200 ) ( 900 900 ) ;
NETS 2 ;
- a[0] ( u A ) + ROUTED metal2 ( -50 0 ) ( 50 0 ) M2_M1 NEW metal1 ( 0 0 ) M2_M1 NEW metal1 ( 50 0 ) ( 50 70 ) ;
- b + ROUTED metal1 ( 0 300 ) ( 0 400 ) M2_M1 NEW metal3 ( 0 450 ) ( 0 400 ) M3_M2 NEW metal3 ( 0 450 ) M4_M3 ;
END NETS
";

/// The net a[0] with pins and obstacles, and how it ran.
fn with(name: &str, pins: &str, obstacles: &str, grid: &str) -> (Option<Net>, Ran) {
    let folder = folder_of(name);
    fs::create_dir_all(&folder).unwrap();
    let (pins_file, obstacles_file) = (folder.join("pins.txt"), folder.join("obstacles.txt"));
    fs::write(&pins_file, pins).unwrap();
    fs::write(&obstacles_file, obstacles).unwrap();
    let [folder, pins, obstacles] =
        [&folder, &pins_file, &obstacles_file].map(|path| path.to_str().unwrap());
    let words = [
        "-",
        "-o",
        folder,
        "--pins",
        pins,
        "--obstacles",
        obstacles,
        "--grid",
        grid,
    ];
    let ran = antenna(&words, TEXT.as_bytes());
    let file = fs::read(format!("{folder}/a%5B0%5D.net"));
    (file.ok().map(|file| net_of(&file).unwrap()), ran)
}

/// x, y and flags of the nodes that have flags.
fn flagged(net: &Net) -> Vec<(u16, u16, u8)> {
    let nodes = net.nodes.iter().filter(|node| node.flags != 0);
    nodes.map(|node| (node.x, node.y, node.flags)).collect()
}

/// A pin on a layer under a via belongs to the lowest node there; one in the middle of a wire gets a node.
#[test]
fn pins_at_their_nodes() {
    let pins = "# pins\npin a[0] at -50 0 metal2 source\npin a[0] at 0 0 M1 gate\npin a[0] at 50 30 metal1 gate\n\
                pin a[0] at 50 30 metal1 source\npin b at 0 400 metal1\n";
    let (net, ran) = with("pins", pins, "", "1");
    assert_eq!((ran.status, ran.errors.as_str()), (Some(0), ""));
    let net = net.unwrap();
    assert_eq!(flagged(&net), [(50, 200, 2), (100, 200, 1), (150, 230, 3)]);
    assert_eq!(net.nodes.len(), 6);
    let (net, _) = with("pins-none", "", "", "1");
    assert_eq!(
        (
            flagged(&net.as_ref().unwrap()).len(),
            net.unwrap().nodes.len()
        ),
        (0, 5)
    );
    let (net, ran) = with("pins-grid", "pin a[0] at 50 70 metal1 gate\n", "", "10");
    assert_eq!(
        (ran.status, flagged(&net.unwrap())),
        (Some(0), vec![(15, 27, 1)])
    );
}

#[test]
fn pins_of_the_sample() {
    let ran = antenna(&["own-form.def", "--pins", "own-form.pins"], &[]);
    assert_eq!((ran.status, ran.errors.as_str()), (Some(0), ""));
    for (line, end) in ran.text.lines().zip([
        "layers 1,2,3, 4 gates, 0 sources",
        "layers 4,5, 1 gate, 1 source",
        "layers 1,2, 1 gate, 1 source",
        "layers 14,15,16, 1 gate, 0 sources",
    ]) {
        assert!(line.ends_with(end), "{line}");
    }
}

#[test]
fn pins_that_are_named() {
    for (pins, told) in [
        (
            "pin b at 0 300 metal1\npin a[0] at 50 40 metal2 gate\n",
            ":2: net 'a[0]': refused 19 0: pin 0 of the net: no wire",
        ),
        (
            "pin a[0] at -50 0 metal2\npin a[0] at -50 0 metal1\n",
            ":2: net 'a[0]': refused 19 1: pin 1 of the net: no wire",
        ),
        ("pin a[0] at -50 0 metal3\n", ":1: net 'a[0]': refused 19 0"),
        (
            "pin b at 0 300 metal1\npin b at 0 400 metal2 source\n",
            ":2: net 'b': no wire of metal2 is at this pin, only a via up from a lower layer (name that layer, and the pin counts from its stage on)\n",
        ),
        (
            "pin b at 0 450 metal4 gate\n",
            ":1: net 'b': no wire of metal4 is at this pin, only a via up",
        ),
        (
            "pin a[0] at -101 0 metal2\n",
            ":1: net 'a[0]': x -101 is -1 steps from -100, and 0 to 65535 can be written",
        ),
        (
            "pin b at 0 400 metal1\n\npin c at 0 0 metal1\n",
            ":3: - has no net 'c'",
        ),
    ] {
        let (_, ran) = with("pins-named", pins, "", "1");
        assert_eq!(ran.status, Some(2), "{pins}");
        let at = ran.errors.find("pins.txt").unwrap() + "pins.txt".len();
        assert!(ran.errors[at..].starts_with(told), "{pins}: {}", ran.errors);
        assert_eq!(ran.errors.lines().count(), 1);
    }
    for (pins, told) in [
        (
            "pin a[0] 0 0 metal1\n",
            ":1: a pin is 'pin NET at X Y LAYER', then 'gate' or 'source'",
        ),
        ("\npin a[0] at 0 x metal1\n", ":2: 'x' is no whole number"),
        (
            "pin a[0] at 0 0 metal17\n",
            ":1: 'metal17' is no layer, metal1 to metal16",
        ),
        (
            "pin a[0] at 0 0 metal1 gaet\n",
            ":1: 'gaet' is neither 'gate' nor 'source'",
        ),
        ("obstacle 0 0 to 1 1\n", ":1: a pin is 'pin NET at"),
    ] {
        let (net, ran) = with("pins-wrong", pins, "", "1");
        assert_eq!((ran.status, ran.text.as_str()), (Some(2), ""));
        assert!(net.is_none());
        assert!(
            ran.errors.contains(&format!("pins.txt{told}")),
            "{}",
            ran.errors
        );
    }
}

/// Those that hold a point of the net, moved, divided inwards, and no others.
#[test]
fn obstacles_on_the_net() {
    let obstacles = "obstacle -60 -5 to -40 5\nobstacle 60 0 to 80 9\nobstacle 50 70 to 50 70\nobstacle -2000 -2000 to 200000 -1\n\
                     obstacle -2000 -2000 to 200000 0\nobstacle 1 0 to 9 9\n";
    let (net, ran) = with("obstacles", "", obstacles, "1");
    assert_eq!((ran.status, ran.errors.as_str()), (Some(0), ""));
    let obstacle = |x1, y1, x2, y2| Obstacle {
        x1,
        y1,
        x2,
        y2,
        layer: 16,
    };
    let expected = [
        obstacle(40, 195, 60, 205),
        obstacle(150, 270, 150, 270),
        obstacle(0, 0, 65535, 200),
        obstacle(101, 200, 109, 209),
    ];
    let net = net.unwrap();
    assert_eq!((net.version, &net.obstacles[..]), (1, &expected[..]));
    let (net, _) = with("obstacles-grid", "", obstacles, "10");
    let expected = [
        obstacle(4, 20, 6, 20),
        obstacle(15, 27, 15, 27),
        obstacle(0, 0, 20010, 20),
    ];
    assert_eq!(net.unwrap().obstacles, expected);
    for (obstacles, told) in [
        ("obstacle 0 0 to -1 0\n", ":1: its corners are reversed"),
        (
            "obstacle 0 0 1 1\n",
            ":1: an obstacle is 'obstacle X1 Y1 to X2 Y2'",
        ),
        (
            "obstacle 0 0 to 1 1 layer 3\n",
            ":1: an obstacle is 'obstacle X1 Y1 to X2 Y2', and has no layer here",
        ),
        ("obstacle 0 0 to 1 1.5\n", ":1: '1.5' is no whole number"),
    ] {
        let (_, ran) = with("obstacles-wrong", "", obstacles, "1");
        assert_eq!((ran.status, ran.text.as_str()), (Some(2), ""));
        assert!(
            ran.errors.contains(&format!("obstacles.txt{told}")),
            "{}",
            ran.errors
        );
    }
}

/// More obstacles on one net than a net file has.
#[test]
fn too_many_obstacles() {
    let obstacles: String = (0..257).map(|_| "obstacle 0 0 to 1 1\n").collect();
    let (net, ran) = with("obstacles-many", "", &obstacles, "1");
    assert!(net.is_none());
    assert_eq!(ran.text, "1 of 2 nets read; 0 0 is -100 -200 of the file\n");
    assert!(
        ran.errors
            .starts_with("antenna: -:3:3: net 'a[0]': refused 6 0: "),
        "{}",
        ran.errors
    );
}
