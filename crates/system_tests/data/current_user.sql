open r ann
r: SELECT current_user
