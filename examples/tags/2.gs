session DataCurator
printit
Tags occurrencesOf: #sea
%
printit
Tags asArray
%
printit
Tags includes: #mountain
%
run
"Takes one of the two away."
Tags remove: #sea
%
printit
Tags size
%
printit
Tags remove: #mountain
%
commit
printit
"A bag goes by identity: the second 'sea' is another string than the first."
Tags add: 'sea'. Tags occurrencesOf: 'sea'
%
abort
printit
Tags asArray
%
