session DataCurator
run
Visits increment.
Pages at: #home put: (Pages at: #home ifAbsent: [0]) + 1
%
printit
Pages at: #home
%
printit
Pages keys
%
printit
Pages at: #about
%
printit
"The keys are integers, characters, symbols and booleans, not strings."
Pages at: 'home'
%
printit
Visits incrementBy: 1152921504606846975
%
commit
printit
Visits value
%
