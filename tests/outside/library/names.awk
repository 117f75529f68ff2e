# The codes of hlr.h and their names, as names.c prints them: reads refusal.rt of crates/tatp_rows/src. Ten codes are no
# refusals, and the program's own refusals are answered by no call for C.
BEGIN { print "0 Done" }
/Refusal::[A-Za-z]+ => [0-9]+,/ { code[$1] = $3 + 0 }
/Refusal::(Thread|Syntax|Read|Write) => / { next }
/Refusal::[A-Za-z]+ => "[A-Za-z]+",/ { gsub(/[",]/, "", $3); print code[$1], $3 }
END { print "247 Locked"; print "248 BadJournal"; print "249 Failed"; print "250 Journaled"; print "251 NoJournal" }
END { print "252 Elsewhere"; print "253 Away"; print "254 NotOpen"; print "255 StillOpen" }
