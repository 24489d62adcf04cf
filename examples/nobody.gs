session Nobody
commit
