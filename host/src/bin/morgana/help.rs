//! How the program is used.

/// The name and version of the program.
pub const VERSION: &str = concat!("morgana ", env!("CARGO_PKG_VERSION"), "\n");

/// What the program does, for people.
pub const HELP: &str = "\
morgana: checks, shows, evaluates, prices, compares and moves circuit keys

A KEY is a file that holds one key of either edition, or - for standard input.
Values are modulo p = 2147483647.

  morgana check KEY...
      Prints the key's length, its counts, its row bits and its column bits:
      key 53 bytes arrays 2 cells 1 calls 2 rows 1 columns 1
      Of several keys each line names its file.

  morgana show KEY
      Prints each record on a line: its offset in the file, its kind and its
      fields. The head has the key's edition; a factor, which the calls of
      edition 2 have, is printed as a negative number too where that is
      shorter. Of a refused key it prints the records up to the one at fault,
      which is marked with >, and then the refusal; a key over 65536 bytes has
      no such record.

  morgana evaluate KEY [--point FILE] [--quadratic]
      Evaluates the key at a random point (--random asks for the same), or at
      each point in FILE, up to one that is refused. Prints the point, then for
      each array its number, A, B and C, and then the key's own A, B and C,
      which are those of the last array. Behind all points it prints the count
      of factors.

  morgana cell KEY ROW COLUMN
      Prints A, B and C at one row and column of the key's matrices, both
      counted from 0, and the count of factors.

  morgana price KEY --cell R --call R --factor R
      Prints what one evaluation of the key costs, at any point, by three rates
      in hundredths of a penny, each at most 1000000: for each cell, for each
      call and for each factor, as `Factors` below counts them. The total is
      divided by 100 once, half a penny upwards:
      price 3 pence, 0.03 pounds
      cells 1 at 150, calls 2 at 75, factors 3 at 3: 309 hundredths of a penny
      All three rates must be given.

  morgana move KEY --to FILE [--force]
      Writes the key to FILE in the edition that it is not of, 1 or 2: the same
      circuit. Calls get factor 1 in edition 2, and must have it to be moved
      back; there and back gives the same bytes. Prints both editions and
      lengths. A file that is there is replaced with --force alone. FILE is
      written whole or not at all, and not at all where the move is refused.

  morgana compare OLD NEW [--points N | --point FILE] [--quadratic] [--quiet]
                          [--no-locate] [--shorter] [--keep FILE [--force]]
  morgana compare --pairs FILE ...
      Compares two keys, also of two shapes or editions, at random points: as
      many as bring the probability that keys that differ would pass below
      2^-80 (at most 4), or N of them (1 to 1000000), or at the points in FILE,
      for which no bound is given. Prints `same` or `different`, what that
      rests on, and then the points; for `different` the first point that shows
      it. With --quiet no points are printed. The count of factors comes last.
      Behind `different` stands a cell in which the keys differ, with A, B and C
      of both keys there, zero beyond a key's own rows and columns:
      at row 0, column 1
      old A 10 B 14 C 0
      new A 10 B 15 C 0
      It is found from the point; other cells, also before it, may differ too.
      With --no-locate it is left out.
      With --shorter a line behind `same` names the file of the shorter key, the
      old one where both have as many bytes:
      new is shorter, 28 bytes for 53: \"new.key\"
      With --keep FILE that key is also copied to FILE, and the line goes on:
      new is shorter, 28 bytes for 53: \"new.key\", kept as \"small.key\"
      A file that is there, also OLD or NEW, is replaced with --force alone.
      FILE is written whole or not at all, and not at all where the keys are
      different or refused. --keep takes one pair of files, not folders or
      --pairs.
      Where one key has more row bits or column bits than the other, both are
      compared as filled with zeros, and what stands behind the verdict says so:
      old has 3 row bits, new 4: compared as filled with zeros
      Where OLD and NEW are folders, all files of the same path below them are
      compared. One that is no key is refused; one that only one folder has
      fails, and so does a link to a folder. With --pairs the files on each
      line of FILE are compared: an old and a new name, with a tab or a space
      between, from the current folder on. Each pair then has one line; its
      points are printed with --json alone, and the count of factors of all
      pairs comes last.

  morgana --help, morgana COMMAND --help    Prints this page.
  morgana --version                         Prints the version.

Options
  --quadratic  Takes coordinates from the field of the p² elements u + v·i,
               where i² is -1. A coordinate is two numbers, u and then v, and
               so are A, B and C at a point; in a cell they are one number.
  --json       Prints answers as JSON, one object a line; JSON.md, which is
               installed in share/doc/morgana, describes them.
  An option's value is the next argument, or follows =, as in --points=3. A
  file whose name begins with - goes after --, as in: morgana check -- -key

What \"same\" means
  Two keys are the same where the dense matrices A, B and C of their last
  arrays are equal in every cell, modulo p. A key with fewer row bits or column
  bits than the other is read as filled with zeros up to as many, its own
  matrices standing at row 0 and column 0. How the keys are made up of arrays
  does not matter, and arrays that the last one does not reach through calls do
  not count. The order of constraints and of witness numbers does: keys whose
  rows or columns are permuted are different. `different` is certain. `same` is
  certain where the files are identical, and where the matrices have one place
  (no row bits and no column bits); else it has the bound that is printed, for
  points drawn at random once both keys are fixed; m is the larger row bits and
  the larger column bits together. A bound below 1.0e-38 is printed as that. For
  several points too it is a proved law: keys that differ in a cell are found
  the same at every point of at most (q^m - (q - 1)^m)^s of all (q^m)^s lists of
  s points over a field of q elements, and what it takes is that the points are
  drawn uniformly and independently of each other once both keys are fixed.

Factors
  The last line of evaluate, cell and compare counts the factors of the weights
  of a key's cells and calls, one for each coordinate:
      factors 3
  A cell in an array of k row bits and k' column bits counts k + k', a call
  from there of an array of K and K' bits (k - K) + (k' - K'), in all arrays of
  the key. The factor of a call of edition 2 counts nothing, and with
  --quadratic the count is the same. It is at most (n + n')(cells + calls), by
  what check prints, where n and n' are rows and columns. Compare counts both
  keys, and for each key one for each coordinate that only the other uses: at
  most (N + N')(cells + calls + 2), where N and N' are the larger rows and
  columns, and cells and calls those of both keys. The line adds up all answers
  of a run, at all their points; identical files and refusals have no count,
  and where nothing has, there is no such line. To find the cell behind
  `different` and to name the shorter key count nothing. With --json each object
  has its own count. What price counts is what evaluate counts at one point.

Point file
  Two lines for each point, as evaluate and compare print them; their whole
  output may be given where it has points, JSON too. Each line has a word and
  then the coordinates, decimal numbers between spaces; a line without
  coordinates is the word alone.
      rows 3 2147483646
      columns 4
  With --quadratic a coordinate is two numbers: `rows 3 2147483646` is one,
  3 - i. A point for two keys has as many coordinates as the larger rows and
  the larger columns, by what check prints.

Refusals
  What the library refuses is answered with a line that begins
      refused N at P: REASON
  and goes on with what is known: the field that breaks the rule, the numbers
  given and wanted, the file. P is an offset in the key where N is 1 to 13 or
  55, the count received for 21 and 22, a number's index (rows first) for 23, 0
  for the row and 1 for the column for 24, the moved key's length for 56, and 0
  for --cell, 1 for --call and 2 for --factor for 62.

Exit status
  0 accepted, priced, moved or same, 1 different, 2 refused, 3 wrong usage, a
  file that cannot be read or written or output that cannot be written; of
  several answers the greatest.
  Answers and refusals go to standard output, all else to standard error; of
  several keys or pairs one that fails has a line on standard output, which
  begins with `failed`. Where the reader of the output closes it early, morgana
  ends with 3 and no message.

Example
  $ morgana compare old.key new.key --points 1
  same
  keys that differ would pass with probability at most 9.4e-10 (m = 2, 1 point)
  rows 850563382
  columns 317573359
  factors 5
";
