"""Files of ballots as people have them, with what they become, each written from the description of its form.

A row has the file's name, its content, what the caller names, the names of the alternatives in the order of their
numbers, and the lines of the profile: weights, and orders as numbers.
"""

TEA = ("tea", "milk", "soup")


def _row(name, content, called, lines, /, **named):
    return name, content if isinstance(content, bytes) else content.encode(), named, tuple(called), lines


_TOP = "voter,tea,milk,soup\n"

# ---- a column of ranks for each alternative

RANKS = [
    _row("plain.csv", "tea,milk,soup\n1,2,3\n2,1,3\n1,2,3\n", TEA, [(2, "123"), (1, "213")]),
    _row("crlf.csv", "tea,milk,soup\r\n3,1,2\r\n", TEA, [(1, "231")]),
    _row("old-mac.csv", "tea,milk,soup\r3,1,2\r1,3,2\r", TEA, [(1, "231"), (1, "132")]),
    _row("no-end.csv", "tea,milk,soup\n3,2,1", TEA, [(1, "321")]),
    _row("empty-lines-at-the-end.csv", "tea,milk,soup\n3,2,1\n\n\n", TEA, [(1, "321")]),
    _row("voters.csv", _TOP + "Ada,1,2,3\nBo,2,3,1\n", TEA, [(1, "123"), (1, "312")], skip=["voter"]),
    _row("voters-by-number.csv", _TOP + "Ada,1,2,3\n", TEA, [(1, "123")], skip=["1"]),
    _row("quoted.csv", '"Ito, K.","Muller","Ruiz"\n"2","1","3"\n', ("Ito, K.", "Muller", "Ruiz"), [(1, "213")]),
    _row("quotes-inside.csv", '"the ""old"" mill",pool\n2,1\n', ('the "old" mill', "pool"), [(1, "21")]),
    _row("semicolons.csv", "tea;milk;soup\n2;3;1\n", TEA, [(1, "312")]),
    _row("said-semicolons.csv", "sep=;\ntea, hot;milk\n2;1\n", ("tea, hot", "milk"), [(1, "21")]),
    _row("tabs.tsv", "tea\tmilk\tsoup\n2\t3\t1\n", TEA, [(1, "312")]),
    _row("commas-in-tabs.tsv", "Ito, K.\tRuiz; J.\n2\t1\n", ("Ito, K.", "Ruiz; J."), [(1, "21")]),
    _row("marked.csv", b"\xef\xbb\xbftea,milk\n2,1\n", ("tea", "milk"), [(1, "21")]),
    _row("utf16.csv", "the\u00e9;milk\r\n1;2\r\n".encode("utf-16"), ("the\u00e9", "milk"), [(1, "12")]),
    _row("utf16-be.tsv", b"\xfe\xff" + "the\u00e9\tmilk\n1\t2\n".encode("utf-16-be"), ("the\u00e9", "milk"),
         [(1, "12")]),
    _row("windows.csv", "M\u00fcller;Ito\r\n2;1\r\n".encode("windows-1252"), ("M\u00fcller", "Ito"), [(1, "21")],
         encoding="windows-1252"),
    _row("blanks.csv", " tea , milk,soup \n 1, 2 ,3\n", TEA, [(1, "123")]),
    _row("head-on-two-lines.csv", '"tea\nwith milk",soup\n2,1\n', ("tea with milk", "soup"), [(1, "21")]),
    _row("trailing-commas.csv", "tea,milk,,\n2,1,,\n1,2,,\n", ("tea", "milk"), [(1, "21"), (1, "12")]),
    _row("weights.csv", "votes,tea,milk\n12,1,2\n30,2,1\n", ("tea", "milk"), [(12, "12"), (30, "21")],
         weight="votes"),
    _row("weights-joined.csv", "tea,milk,votes\n1,2,12\n1,2,30\n", ("tea", "milk"), [(42, "12")], weight="votes"),
    _row("as-pandas-writes.csv", ",tea,milk\n0,1.0,2.0\n1,2.0,1.0\n", ("tea", "milk"), [(1, "12"), (1, "21")],
         skip=["1"]),
    _row("kept-lines.csv", "tea,milk\n1,2\n2,1\n1,2\n", ("tea", "milk"), [(1, "12"), (1, "21"), (1, "12")],
         keep_lines=True),
    _row("other-numbers.csv", "tea,milk,soup\n1,2,3\n", ("soup", "tea", "milk"), [(1, "231")],
         names=["soup", "tea", "milk"]),
    _row("some-columns.csv", "age,tea,milk,soup\n40,2,1,3\n", ("tea", "milk"), [(1, "21")], ranks=["tea", "milk"]),
    _row("ranks-with-gaps.csv", "tea,milk,soup,rice\n1,2,4,\n", ("tea", "milk", "soup", "rice"), [(1, "1234")],
         incomplete="all"),
    _row("dropped.csv", "tea,milk,soup\n1,2,3\n1,,2\n1,1,2\n,,\n3,2,1\n", TEA, [(1, "123"), (1, "321")],
         incomplete="drop", ties="drop", empty="drop"),
    # soup and rice stand behind in both orders, a half each
    _row("incomplete.csv", "tea,milk,soup\n1,,\n1,2,3\n", TEA, [(3, "123"), (1, "132")], incomplete="all"),
    _row("ties.csv", "tea,milk,soup\n1,1,3\n3,2,1\n", TEA, [(1, "123"), (1, "213"), (2, "321")], ties="all"),
    _row("even-weights.csv", "n,tea,milk\n4,1,1\n1,1,2\n", ("tea", "milk"), [(3, "12"), (2, "21")], ties="all",
         weight="n"),
    _row("average-ranks.csv", "tea,milk,soup\n1.5,1.5,3\n", TEA, [(1, "123"), (1, "213")], ties="all"),
    _row("worst.csv", "tea,milk,soup\n,1,\n2,,1\n", TEA, [(1, "231"), (1, "312")],
         incomplete=["soup", "milk", "tea"]),
    _row("only.csv", "tea,milk,soup\n1,2,3\n2,3,1\n3,1,2\n", ("tea", "soup"), [(1, "12"), (2, "21")],
         only=["soup", "tea"]),
    _row("only-mends.csv", "tea,milk,soup\n1,,2\n", ("tea", "soup"), [(1, "12")], only=["tea", "soup"]),
    _row("one-alternative.csv", "name,tea\nAda,1\nBo,1\n", ("tea",), [(2, "1")], ranks=["tea"]),
]

_FORM = "Timestamp,Rank these drinks [Tea],Rank these drinks [Milk],Rank these drinks [Soup]\n"
_PLACES = "Timestamp,Your ranking [1st choice],Your ranking [2nd choice],Your ranking [3rd choice]\n"
DRINKS = ("Tea", "Milk", "Soup")

# ---- the exports of online forms
FORMS = [
    _row("grid.csv", _FORM + "2026/01/02 10:00,2nd choice,1st choice,3rd choice\n", DRINKS, [(1, "213")], heads=True),
    _row("grid-in-words.csv", _FORM + "1,Second,First,Third\n", DRINKS, [(1, "213")], heads=True),
    _row("grid-with-numbers.csv", _FORM + "1,2,1,3\n", DRINKS, [(1, "213")], heads=True),
    _row("grid-of-places.csv", _PLACES + "now,Soup,Tea,Milk\nthen,Tea,Soup,Milk\n", ("Soup", "Tea", "Milk"),
         [(1, "123"), (1, "213")], heads=True),
    _row("grid-of-places-named.csv", _PLACES + "now,Soup,Tea,Milk\n", DRINKS, [(1, "312")], heads=True,
         names=["Tea", "Milk", "Soup"]),
    _row("two-questions.csv", "Food [Rice],Food [Stew],Drink [Tea],Drink [Milk]\n1st,2nd,2nd,1st\n", ("Tea", "Milk"),
         [(1, "21")], heads="Drink"),
    _row("list-with-semicolons.csv", "ID,Order,Comment\n1,Tea;Milk;Soup;,fine\n2,Milk;Tea;Soup;,\"well, no\"\n", DRINKS,
         [(1, "123"), (1, "213")], list="Order"),
]

# ---- first, second, third choice in columns, and lists
CHOICES = [
    _row("choices.csv", "1st choice,2nd choice,3rd choice\nsoup,tea,milk\ntea,soup,milk\n", ("soup", "tea", "milk"),
         [(1, "123"), (1, "213")]),
    _row("choices-out-of-order.csv", "Second,First\ntea,milk\nmilk,tea\n", ("milk", "tea"), [(1, "12"), (1, "21")]),
    _row("choices-named.csv", "who,best,then\nAda,tea,milk\n", ("tea", "milk"), [(1, "12")],
         choices=["best", "then"]),
    _row("choices-numbered.csv", "1,2\ntea,milk\nmilk,tea\n", ("tea", "milk"), [(1, "12"), (1, "21")],
         choices=["1", "2"]),
    _row("two-of-three.csv", "Choice 1,Choice 2\ntea,milk\nmilk,soup\n", TEA, [(1, "123"), (1, "231")],
         incomplete=["tea", "milk", "soup"]),
    _row("place-left-out.csv", "Rank 1;Rank 2;Rank 3\ntea;;milk\nmilk;tea;\n", ("tea", "milk"),
         [(1, "12"), (1, "21")]),
    _row("list.csv", "ballot\ntea > milk > soup\nsoup>tea>milk\n", TEA, [(1, "123"), (1, "312")]),
    _row("list-with-commas.csv", 'voter,ballot\nAda,"tea, milk, soup"\nBo,"soup,milk,tea"\n', TEA,
         [(1, "123"), (1, "321")], list="ballot"),
    _row("list-with-ties.csv", "ballot\ntea = milk > soup\n", TEA, [(1, "123"), (1, "213")], ties="all"),
    _row("list-of-names-with-commas.csv", 'ballot\n"Ito, K. > Ruiz"\n"Ruiz > Ito, K."\n', ("Ito, K.", "Ruiz"),
         [(1, "12"), (1, "21")]),
]

_NEW = "# TITLE: Board\n# NUMBER ALTERNATIVES: 3\n# NUMBER VOTERS: 5\n# ALTERNATIVE NAME 1: tea\n" \
       "# ALTERNATIVE NAME 2: milk\n# ALTERNATIVE NAME 3: soup\n"
_OLD = "3\n1,tea\n2,milk\n3,soup\n"

# ---- PrefLib
PREFLIB = [
    _row("board.soc", _NEW + "4: 1,2,3\n1: 3,2,1\n", TEA, [(4, "123"), (1, "321")]),
    _row("board.soi", "# DATA TYPE: soi\n" + _NEW + "4: 1\n1: 3,2\n", TEA, [(2, "123"), (2, "132"), (1, "321")],
         incomplete="all"),
    _row("board.toc", "# DATA TYPE: toc\n" + _NEW + "4: 1,{2,3}\n1: 3,2,1\n", TEA, [(1, "321")], ties="drop"),
    _row("halves.toc", "# DATA TYPE: toc\n" + _NEW + "4: 1,{2,3}\n1: 3, 2, 1\n", TEA,
         [(2, "123"), (2, "132"), (1, "321")], ties="all"),
    _row("board.toi", "# DATA TYPE: toi\n" + _NEW + "4: {1,2}\n1: 3\n", TEA, [(2, "123"), (2, "213"), (1, "312")],
         ties="all", incomplete=["tea", "milk", "soup"]),
    _row("old.soc", _OLD + "5,5,2\n4,1,2,3\n1,3,2,1\n", TEA, [(4, "123"), (1, "321")]),
    _row("old.soi", _OLD + "5,5,2\n4,1,2\n1,3,2,1\n", TEA, [(1, "321")], incomplete="drop"),
    _row("old.toc", _OLD + "5,5,2\n4,{1,2},3\n1,3,2,1\n", TEA, [(2, "123"), (2, "213"), (1, "321")], ties="all"),
    _row("old.toi", _OLD + "2,2,1\n2,{1,3}\n", TEA, [(1, "132"), (1, "312")], ties="all",
         incomplete=["tea", "milk", "soup"]),
    _row("old-name-with-comma.soc", "2\n1,Ito, K.\n2,Ruiz\n3,3,1\n3,2,1\n", ("Ito, K.", "Ruiz"), [(3, "21")]),
    _row("by-its-head.txt", "# NUMBER ALTERNATIVES: 2\n# ALTERNATIVE NAME 1: tea\n3: 2,1\n", ("tea", ""), [(3, "21")]),
]

# ---- .blt, and lines of orders
OTHERS = [
    _row("seats.blt", '3 1\n3 1 2 3 0\n4 2 3 1 0\n0\n"tea"\n"milk"\n"soup"\n"Lunch"\n', TEA, [(3, "123"), (4, "231")]),
    _row("withdrawn.blt", '3 1\n-2\n3 1 2 3 0\n4 2 3 1 0\n0\n"tea"\n"milk"\n"soup"\n"Lunch"\n', ("tea", "soup"),
         [(3, "12"), (4, "21")]),
    _row("comments.blt", '2 1 # lunch\n1 2 1 0 # Ada\n0\n"tea #1" # hot\n"milk"\n"Lunch"\n', ("tea #1", "milk"),
         [(1, "21")]),
    _row("ties.blt", '3 1\n2 1=2 3 0\n0\n"tea"\n"milk"\n"soup"\n"L"\n', TEA, [(1, "123"), (1, "213")], ties="all"),
    _row("skipped.blt", '2 1\n(7) 1 - 2 1 0\n1 0\n0\n"tea"\n"milk"\n"L"\n', ("tea", "milk"), [(1, "21")],
         empty="drop"),
    _row("orders.txt", "12: tea > milk > soup\n3: soup > tea > milk\n", TEA, [(12, "123"), (3, "312")],
         form="orders"),
    _row("orders-of-one.txt", "# lunch\ntea>milk\nmilk>tea\ntea>milk\n", ("tea", "milk"), [(2, "12"), (1, "21")],
         form="orders"),
    _row("orders-with-ties.txt", "2: A>B=C\n", ("A", "B", "C"), [(1, "123"), (1, "132")], form="orders", ties="all"),
    _row("orders-with-commas.txt", "tea, milk, soup\nsoup, tea, milk\n", TEA, [(1, "123"), (1, "312")], form="orders"),
]

FILES = [*RANKS, *FORMS, *CHOICES, *PREFLIB, *OTHERS]


def _wrong(name, content, row, why, /, **named):
    return name, content if isinstance(content, bytes) else content.encode(), named, row, why


# ---- broken ones, each with the row and what is told
BROKEN = [
    _wrong("empty.csv", "", 1, "the file is empty"),
    _wrong("heads-alone.csv", "tea,milk\n", 1, "there are no ballots"),
    _wrong("incomplete.csv", "tea,milk\n1,2\n1,\n", 3, "the ballot is incomplete: it doesn't list 'milk'"),
    _wrong("tie.csv", "tea,milk\n1,2\n1,1\n", 3, "the ballot has a tie: 'tea' = 'milk'"),
    _wrong("empty-row.csv", "tea,milk\n1,2\n,\n2,1\n", 3, "the ballot is empty"),
    _wrong("empty-line.csv", "tea,milk\n1,2\n\n2,1\n", 3, "the ballot is empty"),
    _wrong("tie-and-incomplete.csv", "a,b,c\n1,1,\n", 2, "it doesn't list 'c'"),
    _wrong("voter.csv", "voter,tea,milk\nAda,1,2\n", 2, "'Ada' in the column 'voter' isn't a rank"),
    _wrong("id.csv", "id,tea,milk\n17,1,2\n", 2, "the rank 17 in the column 'id' isn't from 1 to 3"),
    _wrong("rank-0.csv", "tea,milk\n0,1\n", 2, "the rank 0 in the column 'tea' isn't from 1 to 2"),
    _wrong("rank-x.csv", "tea,milk\n1,2\n1,x\n", 3, "'x' in the column 'milk' isn't a rank"),
    _wrong("brackets.csv", "R [Tea],R [Milk]\n1st,2nd\n", 1, "the heads have brackets, as 'R [Milk]'"),
    _wrong("questions.csv", "A [Tea],A [Milk],B [Rice]\n1,2,1\n", 1, "several questions: 'A', 'B'", heads=True),
    _wrong("bracket-numbers.csv", "A[1],A[2]\nTea,Milk\n", 1, "numbers stand in the brackets", heads=True),
    _wrong("first-row-is-a-ballot.csv", "2,1,3\n1,2,3\n", 1, "or is the first row a ballot?"),
    _wrong("first-row-is-a-list.csv", "tea > milk\nmilk > tea\n", 1, "looks like a ballot"),
    _wrong("first-row-is-a-name.csv", "tea\nmilk\ntea\n", 3, "is it a ballot?"),
    _wrong("places-and-others.csv", "Name,First,Second\nAda,tea,milk\n", 1, "and these aren't: 'Name'"),
    _wrong("two-signs.csv", "a;b,c\n1;2\n", 1, "commas and semicolons stand in the heads"),
    _wrong("same-heads.csv", "tea,tea\n1,2\n", 1, "two columns are called 'tea'"),
    _wrong("no-head.csv", ",tea,milk\n0,1,2\n", 1, "column 1 has no head"),
    _wrong("long-row.csv", "tea,milk\n1,2\n1,2,3\n", 3, "the row has 3 cells, and there are 2 heads"),
    _wrong("short-row.csv", "tea,milk\n1\n", 2, "the row has 1 cells, and there are 2 heads"),
    _wrong("open-quote.csv", 'tea,milk\n1,2\n"1,2\n', 3, "the row can't be cut into cells"),
    _wrong("not-utf8.csv", b"tea,M\xfcller\n1,2\n", 1, "a byte isn't text in UTF-8"),
    _wrong("zero-byte.csv", b"tea,milk\n1,2\n1,\x002\n", 3, "a zero byte"),
    _wrong("weight.csv", "n,a,b\n3,1,2\n2.5,2,1\n", 3, "the weight '2.5' isn't a whole number", weight="n"),
    _wrong("no-column.csv", "tea,milk\n1,2\n", 1, "no column is called 'votes'", weight="votes"),
    _wrong("twice.csv", "First,Second\ntea,milk\ntea,tea\n", 3, "the ballot lists 'tea' twice"),
    _wrong("unknown.csv", "First,Second\ntea,milc\n", 2, "no alternative is called 'milc' (is 'milk' meant?)",
           names=["tea", "milk"]),
    _wrong("line-in-a-name.csv", 'First,Second\n"tea\nhot",milk\n', 2, "a name goes over several lines"),
    _wrong("nothing-in-a-list.csv", "b\na > > c\n", 2, "nothing stands where a name is wanted"),
    _wrong("other-sign.csv", 'b\n"x, y"\ny > x\n', 3, "'>' stands between names here, and ',' in the rows before"),
    _wrong("unknown-form.txt", "tea beats milk\n", 1, "don't tell its form"),
    _wrong("no-count.soc", "# TITLE: x\n1: 1,2\n", 2, "no '# NUMBER ALTERNATIVES: m' stands before"),
    _wrong("out-of-range.soc", "# NUMBER ALTERNATIVES: 2\n1: 1,3\n", 2, "alternative 3, and there are 2"),
    _wrong("lost-lines.soc", "# NUMBER ALTERNATIVES: 2\n# NUMBER VOTERS: 3\n1: 1,2\n", 2, "the file says 3 voters"),
    _wrong("categories.cat", "# DATA TYPE: cat\n# NUMBER ALTERNATIVES: 2\n1: 1,2\n", 1, "the DATA TYPE is 'cat'"),
    _wrong("brace.toc", "# NUMBER ALTERNATIVES: 2\n1: {1,2\n", 2, "isn't an order of numbers"),
    _wrong("twice.soc", "# NUMBER ALTERNATIVES: 2\n1: 1,1\n", 2, "the ballot lists 1 twice"),
    _wrong("lost-name.soc", "3\n1,tea\n3,soup\n1,1,1\n1,1,2,3\n", 3, "stands where '2,NAME' is wanted"),
    _wrong("no-end.blt", "2 1\n1 1 2 0\n", 2, "no line '0' ends the ballots"),
    _wrong("no-zero.blt", '2 1\n1 1 2\n0\n"a"\n"b"\n"t"\n', 2, "isn't a ballot, as '3 2 1 0'"),
    _wrong("few-names.blt", '2 1\n1 1 2 0\n0\n"a"\n', 4, "1 names, and there are 2 candidates"),
    _wrong("decimals.blt", '2 1\n1.5 1 2 0\n0\n', 2, "'1.5' stands where how many voters is wanted"),
    _wrong("orders.txt", "2: a > b\nb > a > b\n", 2, "the ballot lists 'b' twice", form="orders"),
]
