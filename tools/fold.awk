# Folds the frames of a dump that stand behind each other and only come to a structure which an earlier frame has shown: those that come to the
# same structure are one line, with their first and last number, their step where it is always the same, and how many they are.
function flush(  i, at) {
  for (i = 1; i <= kinds; i++) {
    at = order[i]
    if (count[at] == 1) print "frame " first[at]
    else print "frames " first[at] " to " last[at] (step[at] > 1 ? " by " step[at] : "") ", " count[at] " of them"
    print at
    delete count[at]
  }
  kinds = 0
}
function take(at, number) {
  if (!(at in count)) { order[++kinds] = at; first[at] = number; step[at] = 0 }
  else if (count[at] == 1) step[at] = number - last[at]
  else if (number - last[at] != step[at]) step[at] = 0
  last[at] = number; count[at]++
}
/^frame / { if (held != "") { flush(); print "frame " held } held = $2; next }
held != "" && /^  seen / { take($0, held); held = ""; next }
{ flush(); if (held != "") { print "frame " held; held = "" } print }
END { flush(); if (held != "") print "frame " held }
