#!/usr/bin/env bash
# The options: what they may be, what is said of others, and the help.
. "$(dirname "$0")/lib.sh" || exit 1

# the version that the program answers
version=$(sed -n 's/^const VERSION: &str = "\(.*\)";$/\1/p' crates/hlr/src/options.rt)

# refused_option WORD TEXT: the word is refused, with this text on standard error.
refused_option() {
  hlr_on "$1" < /dev/null
  ends "$1" 2 '' "error: $2

For more information, try '--help'.
"
}

# examples_of HELP: the two examples with which the help ends do what it says.
examples_of() {
  local records words
  sed -n '/^Examples:$/,$p' "$1" > "$room/examples"
  sed -n '/^  [^$]/s/^  //p' "$room/examples" > "$room/examples.want"
  sed -n "s/^  [$] \(printf .*\) | hlr\(.*\)$/\1\n\2/p" "$room/examples" > "$room/commands"
  is '--help: its examples' "$(wc -l < "$room/commands")" 4
  : > "$room/examples.out"
  while read -r records && read -ra words; do
    sh -c "$records" > "$room/in"
    hlr_on "${words[@]}" < "$room/in"
    is '--help: the status of an example' "$status" 0
    cat "$room/out" >> "$room/examples.out"
  done < "$room/commands"
  same '--help: its examples' "$room/examples.out" "$room/examples.want"
}

options() {
  local word
  hlr_on --help < /dev/null
  is '--help: status' "$status" 0
  has '--help' "$room/out" 'Usage: hlr [OPTIONS]'
  has '--help' "$room/out" '--parts <N>'
  has '--help' "$room/out" '--zone <W>'
  has '--help' "$room/out" '--threads'
  is '--help: standard error' "$(wc -c < "$room/err")" 0
  for word in gsd gnd gad usd ul icf dcf sub acc fac active number post give take views scan index regions propose recut divide dissolve; do
    is "--help: the command $word" "$(grep -cE "^  ${word}(,[^ ]*)?  +[^ ]" "$room/out")" "$([ "$word" = give ] && echo 2 || echo 1)"
  done
  has '--help' "$room/out" 'refused,CODE,NAME'
  for word in '1 Memory' '2 Field' '3 NoSubscriber' '4 NoNumber' '5 NoAccess' '6 NoFacility' '7 NoForwarding' \
    '8 NoDestination' '9 Exists' '10 NumberTaken' '11 Moving' '12 NoPart' '13 NoPiece' '14 OutOfRange' '15 NotAdjacent' \
    '16 ManyPieces' '17 Worn' '18 Thread' '19 Syntax' '20 Read' '21 Write' '22 ManyParts'; do
    is "--help: the refusal $word" "$(grep -cwF -e "$word" "$room/out")" 1
  done
  has '--help' "$room/out" 'cell 24 + V / 268435456'
  has '--help' "$room/out" 'set --zone to your highest S divided by 32, rounded up'
  has '--help' "$room/out" "The status is 0, or 1 after 'hlr: no memory'"
  examples_of "$room/out"
  hlr_on --version < /dev/null
  ends '--version' 0 "hlr $version"$'\n' ''
  has 'CHANGELOG.md' CHANGELOG.md "## $version"
  hlr_on --zone 524288 < /dev/null
  ends '--zone 524288' 0 '' ''
  hlr_on --zone 1 < /dev/null
  ends '--zone 1' 0 '' ''
  hlr_on --parts 1 < /dev/null
  ends '--parts 1' 0 '' ''
  hlr_on --parts 16 --zone 4 < /dev/null
  ends '--parts 16 --zone 4' 0 '' ''
  hlr_on --threads --parts 16 --zone 4 < /dev/null
  ends '--threads --parts 16 --zone 4' 0 '' ''
  refused_option --parts=0 "invalid value '0' for '--parts <N>': 0 is not in 1..=16"
  refused_option --parts=17 "invalid value '17' for '--parts <N>': 17 is not in 1..=16"
  refused_option --parts=x "invalid value 'x' for '--parts <N>': invalid digit found in string"
  refused_option --zone=0 "invalid value '0' for '--zone <W>': 0 is not in 1..=524288"
  refused_option --zone=524289 "invalid value '524289' for '--zone <W>': 524289 is not in 1..=524288"
  refused_option --zone=-1 "invalid value '-1' for '--zone <W>': -1 is not in 1..=524288"
  refused_option --zone=x "invalid value 'x' for '--zone <W>': invalid digit found in string"
  refused_option --zone= "invalid value '' for '--zone <W>': cannot parse integer from empty string"
  refused_option --nothing "unexpected argument '--nothing' found

Usage: hlr [OPTIONS]"
  hlr_on $'--zone=\377' < /dev/null
  ends 'an option that is no text' 2 '' $'hlr: an option is no text\n'
}

program_built || finish
options
finish
