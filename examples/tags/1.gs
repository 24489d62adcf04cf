session DataCurator
run
"The tags that visitors gave to a photograph: a bag counts how often each was given."
Globals at: #Tags put: RcIdentityBag new.
Tags add: #sea; add: #boat; add: #sea
%
commit
