a.schedule wide 30000
