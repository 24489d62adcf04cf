# Under every schedule a teller who has the lock, and a view from after that, isn't refused. One who was
# denied it is told by whom, may be refused for the other's posting or lock, and has nothing to unlock.
/^session / { number = $2; other = 3 - number; held = 0 }
conflicts > 0 {
  if ($0 !~ ("^(C1 object [0-9]+:[0-9]+ commit [0-9]+|C4 object [0-9]+:[0-9]+ session " other ")$"))
    print "session " number " was refused for " $0
  conflicts--
}
/^\[[0-9]+\] locked write [0-9]+:[0-9]+ (clean|dirty)$/ { held = 1; locks++ }
/^\[[0-9]+\] denied / {
  if ($0 !~ ("denied write [0-9]+:[0-9]+ by session " other " write$")) print "session " number ": " $0
  locks++
}
/^\[[0-9]+\] refused / { conflicts = $3; if (held) print "session " number " has the lock: " $0; ends++ }
/^\[[0-9]+\] committed [0-9]/ { ends++ }
/^\[[0-9]+\] unlocked / { if (!held) print "session " number " had no lock: " $0; held = 0 }
/^\[[0-9]+\] not held / { if (held) print "session " number " had the lock: " $0 }
END { if (locks != 20 || ends != 20) print locks + 0 " locks and " ends + 0 " commits were answered" }
