header 16384
