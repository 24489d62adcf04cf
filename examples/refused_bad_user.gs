session 2nd
