# Under every schedule each teller makes all five postings. A refusal names a posting of the other since the
# view, and no posting is named twice, since the next try has a later view: so there are five refusals at most.
/^session / { teller = $3 }
conflicts > 0 {
  if ($0 !~ /^C1 object [0-9]+:[0-9]+ commit [0-9]+$/) print teller " was refused for " $0
  if (named[teller, $5]++) print teller " was refused twice for " $0
  conflicts--
}
/^\[[0-9]+\] committed [0-9]/ { made[teller]++ }
/^\[[0-9]+\] refused / { conflicts = $3; if ($3 != 1) print teller ": " $0; refused[teller]++ }
/^\[[0-9]+\] (error|parse|spoiled|no )/ { print teller ": " $0 }
END {
  if (made["Ann"] != 5 || made["Bob"] != 5) print made["Ann"] + 0 " and " made["Bob"] + 0 " commits were made"
  if (refused["Ann"] > 5 || refused["Bob"] > 5) print refused["Ann"] + 0 " and " refused["Bob"] + 0 " were refused"
}
