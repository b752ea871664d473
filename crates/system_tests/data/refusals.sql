open r ann
r: SELECT 1 / 0
r: SELECT 2
r: SELECT 3 FORM t
