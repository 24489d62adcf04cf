session DataCurator
printit
"Takes the job in front."
Jobs remove
%
printit
Jobs asArray
%
commit
run
"Takes one and doesn't commit: it is there again."
Jobs remove
%
abort
printit
Jobs size
%
run
[Jobs isEmpty] whileFalse: [Transcript show: Jobs remove; cr]
%
printit
"Nothing is left: nil."
Jobs remove
%
commit
printit
Jobs remove
%
commit
