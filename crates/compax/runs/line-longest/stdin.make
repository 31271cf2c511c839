line 1024
