session DataCurator
run
"What was committed yesterday."
Globals at: #Sales put: #(20 30)
%
commit
