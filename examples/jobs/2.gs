session DataCurator
run
Jobs add: #iron
%
commit
