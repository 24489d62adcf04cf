session DataCurator
run
"Visits to a site: in all, and by page."
Globals at: #Visits put: RcCounter new.
Globals at: #Pages put: RcKeyValueDictionary new
%
commit
