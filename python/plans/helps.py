"""What `plans --help` and each sub-command's --help print. tests/command runs the examples as they stand."""

MAIN = """\
plans: models of meal plans. A day is a line of names; a model is inferred from
days, and other days are held against it.

  plans list FILE             the model, as text
  plans counts FILE           how often each day, and each way, is used
  plans build FILE -o TABLE   the model, as a table of bytes
  plans walk FILE NAME...     whether a day is allowed, and what may come next
  plans check FILE...         whether a file is accepted; if not, why and where
  plans diff FILE FILE        whether two models are the same; if not, how not
  plans text BOOK             a book as text
  plans book TEXT -o BOOK     a text as a book
  plans picture FILE -o SVG   a drawing (svg, png or pdf)
  plans rows PLAN... -o BOOK  plans in XML as a book, by --element NAME

A FILE is a text, a book or a table; - is standard input.
  -o FILE        where to write; without it, to standard output
  --class CLASS  the class of a text or a book: "2 1", seen or "last 1"
  -q             no word but the answer and errors
  --version      which version this is
'plans walk --help' says more of walk, with an example; so does each.
Exit status: 0 yes or done, 1 no, 2 an error. More: man plans
"""

LIST = """\
plans list FILE [--class CLASS] [-o FILE] [-q]

Prints the model of a text, a book or a table. The first line has the number of
states and, but for a table, of joins and of different days (distinct). Then
each state has a line: its number, + if a day may end there or - if not, and
each name that has an arc there with the state that it leads to.

  $ printf 'tea\\ntea cake\\ntea\\n' | plans list -q -
  states 3 joins 0 distinct 2
  0 - tea>1
  1 + cake>2
  2 +
"""

COUNTS = """\
plans counts FILE [--class CLASS] [-o FILE] [-q]

Prints how often the days of a text or a book use each way through their model,
copies counted. First each different day with how often it is there, the most
frequent first; days that are there equally often in the order of their names.
Then each state as 'plans list' has it, with how many days end there (ends) and
how often each arc is passed (passes). A day that passes an arc twice counts two
there. No copy is left out here, so a text has at most 256 days.

  $ printf 'tea\\ntea cake cake cake\\ntea\\n' | plans counts -q - --class "1 1"
  days 3 distinct 2
  2 tea
  1 tea cake cake cake
  states 3 joins 2
  0 - ends 0 tea>1 passes 3
  1 + ends 2 cake>2 passes 1
  2 + ends 1 cake>2 passes 2
"""

BUILD = """\
plans build FILE [--counts FILE] [--class CLASS] [-o TABLE] [-q]

Writes the table of a text or a book. CLASS says how generous the model is:
"k h" (context; k from 1 to 8, h from 1 to k), seen, or "last j" (j 0 to 8).
Without it the class is the file's own or, if it names none, "2 1". With -o it
says how many states, joins and different rows there are, and how many copies.
With --counts it writes the table's counts file too: how often the days use each
state and each arc. No copy is left out then, so a text has at most 256 days.

  $ printf 'tea\\ntea cake cake\\n' | plans build -q - --class seen -o tea.table
  $ plans list tea.table
  states 4
  0 - tea>1
  1 + cake>2
  2 - cake>3
  3 +
  $ printf 'tea\\ntea\\n' | plans build - -o tea.table --counts tea.counts
  standard input: 2 days, 1 different day (1 is a copy); 1 name:
    tea 2
  tea.table: 2 states, 0 joins, 1 different row (1 is a copy), 23 bytes
  tea.counts: 12 bytes
"""

WALK = """\
plans walk FILE [NAME...] [--class CLASS] [-q]

Says whether the day of these names is allowed by the model of FILE, a text, a
book or a table; if not, how far it goes; and what may come next. Without a name
it is the empty day; a walk takes at most 40 names. On the way is a day that is
not allowed but begins an allowed one; a name may come next if with it the day
still does. The exit status is 0 if the day is allowed, else 1.

  $ printf 'tea\\ntea cake tea\\n' | plans walk -q - tea cake
  on the way: a day may not end here
  next: tea
"""

CHECK = """\
plans check FILE... [-q]

Says of each file whether it is accepted; if not, which refusal it gets, and at
which offset the field begins that it is about. Of a text each faulty line is
told. Of an accepted table it says too which states lead to no end: no day that
comes there can become an allowed one. The exit status is 0 if all are accepted,
1 if one is not, and 2 if one cannot be read.

  $ printf '\\001\\000\\0019' > bad.table
  $ printf '\\001\\000\\001a\\002\\000\\003\\001\\000\\000' > theirs.table
  $ printf '\\004\\000\\004\\001\\000\\000\\001\\004\\000\\001\\000' >> theirs.table
  $ plans check bad.table theirs.table
  bad.table: refused: offset 0: refusal 5: a name's length or bytes are wrong
  theirs.table: accepted: a table of 1 name, seen set, 2 states
  theirs.table: state 1 leads to no end
"""

DIFF = """\
plans diff FILE FILE [-q]

Says whether two tables, or the tables of texts or books, are the same to the
byte; if not, what differs, and a shortest day that one allows and the other
does not. The exit status is 0 if they are the same, else 1.

  $ printf 'tea\\ntea cake\\n' | plans build -q - -o ours.table
  $ printf 'tea\\ntea cake cake\\n' | plans build -q - -o theirs.table
  $ plans diff ours.table theirs.table
  states: 3 in ours.table, 4 in theirs.table
  days: tea cake is allowed by ours.table, not by theirs.table
"""

TEXT = """\
plans text BOOK [-o TEXT]

Writes a book as text, a day a line; - is the empty day. 'plans book' makes the
same book of it.

  $ printf 'tea\\n-\\n' | plans book -q - -o tea.book
  $ plans text tea.book
  tea
  -
"""

BOOK = """\
plans book TEXT [--class CLASS] [-o BOOK] [-q]

Writes a text as a book: names sorted and numbered, days in their order with
their copies. A line is a day: names parted by spaces, or by commas, semicolons
or tabs. A line with a single - is the empty day; # begins a comment.

  $ printf 'class = seen\\ntea cake\\n\\n-\\n' | plans book - -o tea.book
  standard input: 2 days, 2 different days; 2 names:
    cake 1, tea 1
  standard input: 1 blank line passed over (a single - is the empty day)
  tea.book: 27 bytes
"""

PICTURE = """\
plans picture FILE [--tree] [--counts] [--class CLASS] [-o FILE] [-q]

Draws the model with Graphviz (the command dot, Debian's package graphviz). The
output's name ends in .svg, .png, .pdf or .dot; standard output gets svg. With
--tree the prefix tree is drawn beside it, and states that were joined have one
colour. With --counts arrows are as wide as the days use them; beside each name
stands how often it is passed, in each accepting state how many days end there.
States of a table that lead to no end are grey.

  $ printf 'tea\\n' | plans picture -q - -o tea.dot
  $ grep label tea.dot | head -n 1
  label="context (2,1): 2 states, 0 joins, 1 different row"
  $ printf 'tea\\ntea\\n' | plans picture -q --counts - -o tea.dot
  $ grep -o 'label="[^"]* 2"' tea.dot
  label="tea 2"
  label="1\\nends 2"
"""

ROWS = """\
plans rows PLAN... --element NAME [--names FILE] [--class CLASS] [-o BOOK] [-q]

Reads plans in XML and writes one book: a row for each element of that name, the
names of its children in order. A plan is one element of tags and text, with no
attribute, comment, declaration or &. The book's names are the element's and its
children's, sorted; --names takes them from FILE instead, a text of names or a
list of names, a book or a table, and a child that is not there is refused. No
book is written if a plan is refused, or if none has the element (status 1).

  $ echo '<plan><day><tea>hot</tea><cake/></day><day/></plan>' > week.xml
  $ plans rows week.xml --element day -o week.book
  week.xml: 2 rows
  1 plan: 2 rows, 2 different rows; 3 names:
    cake 1, day 0, tea 1
  week.book: 27 bytes
"""

SUBCOMMANDS = {"list": LIST, "counts": COUNTS, "build": BUILD, "walk": WALK, "check": CHECK, "diff": DIFF, "text": TEXT, "book": BOOK,
               "picture": PICTURE, "rows": ROWS}
