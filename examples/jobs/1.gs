session DataCurator
run
"Jobs wait in a queue, the first one in front."
Globals at: #Jobs put: RcQueue new.
Jobs add: #wash; add: #dry
%
commit
