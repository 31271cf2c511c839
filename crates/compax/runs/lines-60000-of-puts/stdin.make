puts 60000
