# shellcheck shell=bash
# The scripts that the program runs while memory is refused.

# row S: the record that adds a subscriber.
row() {
  printf 'sub,%d,%015d,0000000000,0000000000,00000000000000000000,1,%d\n' "$1" "$1" "$(($1 * 7000000 % 4294967295 + 1))"
}

# twice: each record of the input, twice.
twice() {
  local record
  while IFS= read -r record; do printf '%s\n%s\n' "$record" "$record"; done
}

# reports: every report.
reports() {
  printf 'views\nscan\nindex\nregions\npropose\n'
}

# cut BOUND BOUND: a re-cut, again after the piece that a refused one may have left is taken.
cut() {
  printf 'recut,%d,%d\ntake,1,0\ntake,1,1\ntake,1,2\nrecut,%d,%d\nregions\n' "$1" "$2" "$1" "$2"
}

# For three parts and zones of 16 subscribers: 600 subscribers, so that their trees and the index grow twice, 120 rows
# in each other table, and every command, also on subscribers of a loose piece; at the end two pieces are loose. Each
# record that may want memory stands twice, or is a re-cut as above.
script() {
  local s
  for s in $(seq 1 600); do row "$s"; done | twice
  for s in $(seq 2 5 600); do
    printf 'acc,%d,1,3,4,ABC,ABCDE\nfac,%d,2,1,0,0,ABCDE\n' "$s" "$s"
    printf 'icf,%015d,2,8,16,%015d\nnumber,%d,%015d\n' "$s" "$s" "$s" "$((s + 1000))"
  done | twice
  printf 'gsd,7\nul,000000000001007,5\ngsd,7\ngad,7,1\nusd,7,2,1,9\ngnd,7,2,8,9\nactive,7,2,0\ngnd,7,2,8,9\n'
  printf 'dcf,000000000001007,2,8\nviews\npost,0,72\npost,1,20\n'
  reports
  printf 'give,0,high,100\ngive,2,low,400\n' | twice
  printf 'gsd,100\nul,000000000000100,5\nicf,000000000000101,1,0,8,000000000000101\nnumber,102,000000000009102\n'
  printf 'acc,399,1,3,4,ABC,ABCDE\ngsd,400\nacc,99,1,3,4,ABC,ABCDE\nacc,99,1,3,4,ABC,ABCDE\nrecut,50,500\n'
  reports
  printf 'take,1,1\ntake,2,1\n' | twice
  reports
  cut 50 500
  printf 'post,2,72\n'
  cut 300 301
  cut 2 16777216
  cut 2 3
  printf 'divide,2,400\ndivide,2,100\n' | twice
  printf 'post,3,20\npost,4,72\ngsd,399\ngsd,400\n'
  reports
  printf 'dissolve,4\ndissolve,3\n' | twice
  reports
  cut 161 337
  reports
  for s in $(seq 601 640) $(seq 10001 10040); do row "$s"; done | twice
  printf 'give,1,low,200\ngive,1,high,250\n' | twice
  reports
  printf 'gsd,201\ngsd,641\n'
}

# A shorter script for three parts and zones of 16, for threads: the trees and the index grow once, those of other rows
# while a worker has them; a report or a re-cut settles. The number is given where the index is one full node.
short_script() {
  local s
  for s in $(seq 1 32); do row "$s"; done | twice
  printf 'number,7,000000000001007\n' | twice
  for s in $(seq 33 40); do row "$s"; done | twice
  for s in $(seq 1 36); do printf 'acc,%d,1,3,4,ABC,ABCDE\nfac,%d,2,1,0,0,ABCDE\n' "$s" "$s"; done | twice
  for s in $(seq 1 40); do printf 'icf,%015d,2,8,16,%015d\n' "$s" "$s"; done | twice
  printf 'gsd,7\nul,000000000001007,5\npost,0,72\nviews\n'
  printf 'give,0,high,20\n' | twice
  printf 'gsd,7\ngad,20,1\ngnd,7,2,8,9\n'
  printf 'take,1,1\n' | twice
  printf 'gsd,20\nusd,20,2,1,9\npost,1,72\n'
  printf 'divide,1,30\ndivide,3,1000\n' | twice
  printf 'gsd,7\ngsd,35\npost,2,72\n'
  printf 'dissolve,4\ndissolve,3\n' | twice
  reports
  cut 12 300
  reports
}
