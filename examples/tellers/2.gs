session Ann
run
"Each teller has five postings, and ten tries: one that was refused is made again."
Till nextPosting
%
commit
abort
run
Till nextPosting
%
commit
abort
run
Till nextPosting
%
commit
abort
run
Till nextPosting
%
commit
abort
run
Till nextPosting
%
commit
abort
run
Till nextPosting
%
commit
abort
run
Till nextPosting
%
commit
abort
run
Till nextPosting
%
commit
abort
run
Till nextPosting
%
commit
abort
run
Till nextPosting
%
commit
abort
session Bob
run
Till nextPosting
%
commit
abort
run
Till nextPosting
%
commit
abort
run
Till nextPosting
%
commit
abort
run
Till nextPosting
%
commit
abort
run
Till nextPosting
%
commit
abort
run
Till nextPosting
%
commit
abort
run
Till nextPosting
%
commit
abort
run
Till nextPosting
%
commit
abort
run
Till nextPosting
%
commit
abort
run
Till nextPosting
%
commit
abort
