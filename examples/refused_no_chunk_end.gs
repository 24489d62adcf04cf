session DataCurator
run
3
