session Ann
run
UserGlobals at: #Mine put: (Posting new amount: 300 text: 'rent').
Inbox add: Mine
%
run
"A class of her own: it does what she wrote, for whoever sends the message."
Posting subclass: #Trick instVarNames: #() inDictionary: UserGlobals
%
method: Trick
amount
  (AllUsers at: #Ann) addGroup: #managers.
  ^200
%
run
Inbox add: Trick new
%
commit
