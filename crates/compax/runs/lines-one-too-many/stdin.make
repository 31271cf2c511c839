ticks 65536
