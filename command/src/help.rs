//! What --help prints.

pub const HELP: &str = "\
antenna: charge on the pieces of a routed net, and the fewest jumpers that keep its gates safe

  antenna report NET... --limit L    every piece, its weight, whether it harms a gate
  antenna repair NET... --limit L    a smallest set of jumpers
  antenna check NET... --limit L --jumpers FILE
                                     is this set legal, and is it smallest
  antenna draw NET --limit L         a picture (SVG)
  antenna pack TEXT                  a net in text form to a net file
  antenna unpack NET                 a net file to text form
  antenna def FILE                   the nets of a router's DEF file, to net files
  antenna --version

A NET is a net file or a net in text form; '-' is standard input. 'antenna COMMAND --help' says more.
Exit status: 0 fine, 1 a harmful piece or no fix, 2 a file or net refused, unreadable or unwritable, or wrong use; of several nets the highest.
A refusal is printed in words on standard error.
";

pub const REPORT: &str = "\
antenna report NET... --limit L [--stage S] [--clearance C] [--jumpers FILE] [--json]

Prints every piece of the stage (all wires of layer at most S; default 16) with the jumpers in place: its name (its lowest
node, or its wire and the lower of its two jumpers), weight, gate, source, harmful, and layers. Of several nets a line each.
  --clearance C    steps to keep free round obstacles, 0 to 65535; default 0. No jumper may stand at a point that is at most C
                   outside an obstacle in x and at most C outside it in y, if the obstacle counts for the point's wire
  --jumpers FILE   a line 'WIRE POSITION' for each jumper, after a line 'jumpers COUNT' or without; one FILE for all
                   nets, or one for each in their order
  --json           an object on one line for each net
Exit status 1 if a piece is harmful: it has a gate, no source, and weighs more than L.
";

pub const REPAIR: &str = "\
antenna repair NET... --limit L [--stage S] [--clearance C] [--json]

Prints a smallest set of jumpers, a line 'WIRE POSITION' for each, after which no piece of the stage is harmful. Position t lies
t steps from the wire's own node towards its parent. 'report', 'check' and 'draw' take the lines by --jumpers. Of several nets a
line each: how many jumpers.
  --clearance C    as in 'report'
  --json           an object on one line for each net
Exit status 1 if no set will do.
";

pub const CHECK: &str = "\
antenna check NET... --limit L --jumpers FILE [--stage S] [--clearance C] [--json]

Says whether a set of jumpers is legal at the stage and the clearance, and whether a smaller one is. Of several nets a line each.
  --clearance C    as in 'report'
  --jumpers FILE   as in 'report'
  --json           an object on one line for each net
Exit status 1 if it is not legal.
";

pub const DRAW: &str = "\
antenna draw NET --limit L [--stage S] [--clearance C] [--jumpers FILE] [-o FILE]

Draws the net as SVG: wires coloured by layer, vias, harmful pieces with their weights, gates, sources, obstacles, jumpers. Wires
that the stage does not have are broken lines. Obstacles of version 2 have their layer on them (L3 is layer 3) and are faint if they
do not count for the stage's wires. Round the others the area that a clearance above 0 keeps free is drawn.
Of more than 510 jumpers, the most that a smallest set can have, none has a label.
  --clearance C    as in 'report'
  --jumpers FILE   as in 'report'
  -o FILE          or --output FILE: where the picture goes, standard output if it is not given
Exit status 1 if a piece is harmful; the picture is written all the same.
";

pub const PACK: &str = "\
antenna pack TEXT [-o FILE]

Turns a net in text form into a net file. A line for each record, '#' starts a comment:
  version 2                        before all records; without this line the version is 1
  node 0 at 10 20 gate source      nodes rise from 0; 'gate' and 'source' where they hold
  wire 1 to 0 layer 1 factor 3     wire 1 goes from node 1 to its parent 0
  obstacle 0 0 to 12 4 layer 3     two corners, the lower one first; it bars points of wires of layer 3 and below
In version 1 an obstacle has no 'layer' and bars points of every wire. Stage, limit and clearance are no part of a net: the
commands that judge one take them as options.
";

pub const UNPACK: &str = "\
antenna unpack NET [-o FILE]

Turns a net file into text form (see 'antenna pack --help'). To give the obstacles of a net of version 1 layers, put the line
'version 2' in front of its text, write 'layer L' behind each obstacle, L being 16 where it shall still bar points of every wire,
and pack the text.
";

pub const DEF: &str = "\
antenna def FILE [-o DIR] [--grid N] [--pins FILE] [--obstacles FILE [--clearance C]] [--text]

Reads the nets of a DEF file as routers write it, or in the library's own form, and prints a line for each. A net that is not read
is named with its line, column and reason, and the others are read. A note tells of a via that stands one step beside its point,
because the library's form cannot say two changes of layer there: one point of each wire is lost to jumpers.
  -o DIR           or --output DIR: a net file for each net, DIR/NAME.net; bytes of NAME other than letters, digits, '_', '-'
                   and '$' are '%' and two digits of base 16
  --grid N         a step is N units of FILE, and every coordinate a multiple of N
  --pins FILE      a line 'pin NET at X Y LAYER' for each, then 'gate' and 'source' where they hold; without pins no net has a gate
  --obstacles FILE a line 'obstacle X1 Y1 to X2 Y2' for each; they bar points of every wire (net files of version 1; 'antenna
                   unpack --help' says how to give them layers). A net gets those that hold a point of one of its wires
  --clearance C    units of FILE to keep free round obstacles, 0 to 2147483647; default 0. Every obstacle is made larger by C on
                   each side before it is decided which nets get it. Give 'repair' and the others no --clearance for these nets:
                   they would keep that much more, round the obstacles that the net has
  --text           prints the nets that are read in the library's form
Pins and obstacles have the coordinates of FILE. All nets are moved alike: the lower left corner of the die area becomes 0 0.
Exit status 2 if a net is not read; a note does not change it.
";
