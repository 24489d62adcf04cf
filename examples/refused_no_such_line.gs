session DataCurator
begin
