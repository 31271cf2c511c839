crowd 20000
