# Compares what the program answers, where one call for memory was refused, with what it answers else.
#
#   awk -v wanted=ANSWERS -v script=RECORDS -f alike.awk ANSWERS
#
# The answers are those wanted, or whole answers to the first records, but that one record may have been refused for want of
# memory and then done. After a re-cut that was refused, one of the takes may have its piece, and the second re-cut moves
# what is left. It prints the word of the record that was refused, and how a refused re-cut left the regions: whole or with
# a piece loose, and what the second one answers.

# the record of each answer, and where it ends
BEGIN {
  while ((getline record < script) > 0) {
    word = record
    sub(/,.*/, "", word)
    do {
      if ((getline line < wanted) <= 0) exit(bad = 1)
      want[++n] = line
      asked[n] = word
    } while (word ~ /^(views|scan|index|regions)$/ && line !~ "^" word ",")
    ends[n] = 1
  }
}
again != "" { if ($0 != again) exit(bad = 1); again = ""; next }
asked[NR] == "take" && mending {
  if ($0 ~ /^taken,1,[012]$/) { if (taken++) exit(bad = 1) } else if ($0 !~ /^refused,(13,NoPiece|15,NotAdjacent)$/) exit(bad = 1)
  next
}
asked[NR] == "recut" && mending {
  mending = 0
  if ($0 !~ /^recut,[012]$/) exit(bad = 1)
  print (taken ? "loose" : "whole"), $0
  next
}
$0 == want[NR] { next }
$0 == "refused,1,Memory" && want[NR] !~ /^refused,/ && !refusals {
  refusals = 1
  print asked[NR]
  if (asked[NR] == "recut") mending = 1; else again = want[NR]
  next
}
{ exit(bad = 1) }
END { exit bad || again != "" || mending || NR > n || (NR && !ends[NR]) }
