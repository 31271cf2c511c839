a.schedule ticks 65536
