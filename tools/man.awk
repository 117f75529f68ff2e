# The manual page hlr.1, made of what `hlr --help` prints.
#
#   hlr --help | awk -v version=0.5.0 -v day=2026-01-01 -f tools/man.awk
#
# A line that begins with two blanks, or with one and a number, is a row of a table: the text before the next two blanks
# is explained by the text after them, and a table of numbers has several entries in each row. Behind `Examples:`, such
# lines are what a terminal shows. All other lines are text, in paragraphs.
function roff(text) {
  gsub(/\\/, "\\e", text)
  gsub(/-/, "\\-", text)
  gsub(/'/, "\\(aq", text)
  sub(/^[.]/, "\\\\\\&.", text)
  return text
}

function heading(text) { print ".SH " text; was_blank = 0; in_table = 0 }

# an entry: a word in bold, and what it means
function entry(word, about, indent) {
  print ".TP" indent
  print "\\fB" roff(word) "\\fR"
  print roff(about)
}

# begins what a terminal shows, or ends it
function shown(now) {
  if (now && !is_shown) print ".PP\n.EX"
  if (!now && is_shown) print ".EE"
  is_shown = now
}

NR == 1 {
  name = $0
  sub(/[.] .*/, "", name)
  printf ".TH HLR 1 \"%s\" \"hlr %s\" \"User Commands\"\n", day, version
  # no word is parted, since many are what is typed
  print ".nh\n.ad l"
  heading("NAME")
  print "hlr \\- " tolower(substr(roff(name), 1, 1)) substr(roff(name), 2)
  about = $0
  next
}

/^Usage: / {
  heading("SYNOPSIS")
  print "\\fBhlr\\fR [\\fIOPTIONS\\fR]"
  heading("DESCRIPTION")
  print roff(about)
  next
}

/^Options:$/ { heading("OPTIONS"); in_options = 1; next }

/^Examples:$/ { heading("EXAMPLES"); in_examples = 1; next }

/^The status is / { shown(0); in_examples = 0; heading("EXIT STATUS") }

in_examples && /^ / { shown(1); print roff(substr($0, 3)); next }

in_examples && /./ { if (is_shown) { shown(0); print ".PP" }; print roff($0); next }

/^$/ { was_blank = 1; next }

# rows
/^ / {
  if (was_blank && in_table) print ".PP"
  was_blank = 0
  in_table = 1
  row = $0
  sub(/^ +/, "", row)
  if (row ~ /^[0-9]/) {
    count = split(row, cells, /  +/)
    for (i = 1; i <= count; i++) {
      word = cells[i]
      sub(/ .*/, "", word)
      entry(word, substr(cells[i], length(word) + 2), " 4")
      print ".PD 0"
    }
  } else {
    word = row
    sub(/  .*/, "", word)
    sub(/^.*[^ ]  +/, "", row)
    entry(word, row, "")
  }
  next
}

# text
{
  if (in_options) { heading("COMMANDS"); in_options = 0 } else if (was_blank) print ".PD\n.PP"
  was_blank = 0
  in_table = 0
  print roff($0)
}
