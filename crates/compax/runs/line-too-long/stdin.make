line 1025
