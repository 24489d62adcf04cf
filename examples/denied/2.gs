session Ann
lock write Till
abort
run
"No chunk can ask whether the lock was denied, so the posting is tried in any case."
Till post: 10
%
commit
abort
unlock Till
lock write Till
abort
run
Till post: 10
%
commit
abort
unlock Till
lock write Till
abort
run
Till post: 10
%
commit
abort
unlock Till
lock write Till
abort
run
Till post: 10
%
commit
abort
unlock Till
lock write Till
abort
run
Till post: 10
%
commit
abort
unlock Till
lock write Till
abort
run
Till post: 10
%
commit
abort
unlock Till
lock write Till
abort
run
Till post: 10
%
commit
abort
unlock Till
lock write Till
abort
run
Till post: 10
%
commit
abort
unlock Till
lock write Till
abort
run
Till post: 10
%
commit
abort
unlock Till
lock write Till
abort
run
Till post: 10
%
commit
abort
unlock Till
session Bob
lock write Till
abort
run
Till post: 10
%
commit
abort
unlock Till
lock write Till
abort
run
Till post: 10
%
commit
abort
unlock Till
lock write Till
abort
run
Till post: 10
%
commit
abort
unlock Till
lock write Till
abort
run
Till post: 10
%
commit
abort
unlock Till
lock write Till
abort
run
Till post: 10
%
commit
abort
unlock Till
lock write Till
abort
run
Till post: 10
%
commit
abort
unlock Till
lock write Till
abort
run
Till post: 10
%
commit
abort
unlock Till
lock write Till
abort
run
Till post: 10
%
commit
abort
unlock Till
lock write Till
abort
run
Till post: 10
%
commit
abort
unlock Till
lock write Till
abort
run
Till post: 10
%
commit
abort
unlock Till
