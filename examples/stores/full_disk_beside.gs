session DataCurator
run
"Whichever of the two comes first meets the full disk, and the other one the Stone that halted."
Globals at: #Large put: (Array new: 20000)
%
commit
session DataCurator
run
Globals at: #Large put: (Array new: 20000)
%
commit
