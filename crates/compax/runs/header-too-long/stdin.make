header 16385
