wide 30000
