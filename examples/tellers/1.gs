session DataCurator
run
"An account to which two tellers post, and a bag with each teller's name as often as that one has posted."
| desk |
UserProfile newUser: #Ann; newUser: #Bob.
desk := Segment new.
desk worldAuthorization: #write.
Object subclass: #Account instVarNames: #(balance) inDictionary: Globals.
Globals at: #Till put: (Account new assignToSegment: desk).
Globals at: #Posts put: (RcIdentityBag new assignToSegment: desk)
%
method: Account
balance
  ^balance isNil ifTrue: [0] ifFalse: [balance]
%
method: Account
post: amount
  "To count the money takes a while."
  | counted |
  counted := 0.
  amount * 20000 timesRepeat: [counted := counted + 1].
  balance := self balance + (counted // 20000)
%
method: Account
nextPosting
  "The next of five postings of the session's user, where one is left. Their number is committed with
  the posting, among the user's own globals: a try that is refused, and forgotten, isn't counted."
  | done |
  done := UserGlobals at: #Done ifAbsent: [0].
  done < 5 ifTrue: [
    self post: 10.
    Posts add: System myUserProfile userId.
    UserGlobals at: #Done put: done + 1]
%
commit
